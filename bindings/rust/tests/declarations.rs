//! include/rcl.h, src/raw.rs, the exports of crates/rcl and the structs of crates/words say the
//! same: every call with its arguments in order, and every struct with its fields. The header's kind codes and its
//! macros for spans are those of this crate. Every call has an example in bindings/c/calls.c.

use std::collections::BTreeMap;
use std::fs;
use std::path::{Path, PathBuf};

use rcl::{Kind, Span, LARGEST_OFFSET};

/// A name and a type, written as in Rust.
type Named = (String, String);

#[derive(Debug, Default)]
struct Declared {
    structs: BTreeMap<String, Vec<Named>>,
    /// Arguments, and after them the result.
    calls: BTreeMap<String, (Vec<Named>, String)>,
}

impl Declared {
    /// The fields of a result, those of a struct inside it among them.
    fn fields(&self, result: &str) -> Vec<Named> {
        let Some(fields) = self.structs.get(result) else {
            return vec![(String::new(), result.to_string())];
        };
        let expanded =
            fields
                .iter()
                .flat_map(|(name, kind)| match self.structs.contains_key(kind) {
                    true => self.fields(kind),
                    false => vec![(name.clone(), kind.clone())],
                });
        expanded.collect()
    }
}

fn top() -> PathBuf {
    Path::new(env!("CARGO_MANIFEST_DIR")).join("../..")
}

fn read(path: &Path) -> String {
    fs::read_to_string(path).unwrap_or_else(|error| panic!("{}: {error}", path.display()))
}

/// What stands after each `start`, up to the next `end`, and what follows that.
fn each<'s>(
    source: &'s str,
    start: &'s str,
    end: char,
) -> impl Iterator<Item = (&'s str, &'s str)> {
    let found = source.split(start).skip(1);
    found.map(move |rest| rest.split_once(end).expect("It is closed."))
}

fn words(source: &str) -> String {
    source.split_whitespace().collect::<Vec<_>>().join(" ")
}

// Rust, and Rattle's exports.

fn without_line_comments(source: &str) -> String {
    let lines = source.lines().map(|line| line.split("//").next().unwrap());
    lines.collect::<Vec<_>>().join("\n")
}

/// `name: type` with a comma after each.
fn named(source: &str) -> Vec<Named> {
    let pairs = source.split(',').filter_map(|field| field.split_once(':'));
    let named = pairs.map(|(name, kind)| (words(name).replace("pub ", ""), words(kind)));
    named.collect()
}

fn declared_in_rust(source: &str) -> Declared {
    let source = without_line_comments(source);
    let mut declared = Declared::default();
    for (head, _) in each(&source, "pub struct ", '}') {
        let (name, fields) = head.split_once('{').expect("A struct has fields.");
        declared.structs.insert(words(name), named(fields));
    }
    for (head, rest) in each(&source, "fn rcl_", ')') {
        let (name, arguments) = head.split_once('(').expect("A call has arguments.");
        let result = rest
            .trim_start()
            .strip_prefix("-> ")
            .expect("A call has a result.");
        let result = result.split([';', '\n', ' ']).next().unwrap();
        let call = (named(arguments), result.to_string());
        declared.calls.insert(format!("rcl_{name}"), call);
    }
    declared
}

/// A slice is a pointer and a length.
fn slices_taken_apart(arguments: &[Named]) -> Vec<String> {
    let taken_apart = arguments.iter().flat_map(|(_, kind)| match &kind[..] {
        "&[u8]" => vec!["*const u8", "usize"],
        "&[u64]" => vec!["*const u64", "usize"],
        "&mut [u8]" => vec!["*mut u8", "usize"],
        "&mut [u64]" => vec!["*mut u64", "usize"],
        plain => vec![plain],
    });
    taken_apart.map(String::from).collect()
}

// C.

fn without_block_comments(source: &str) -> String {
    let parts = source
        .split("/*")
        .map(|part| part.split_once("*/").map_or(part, |(_, rest)| rest));
    parts.collect()
}

/// Each stands on one line.
fn without_directives(source: &str) -> String {
    let lines = source.lines().filter(|line| !line.starts_with('#'));
    lines.collect::<Vec<_>>().join("\n")
}

/// `rcl_lexed` is `Lexed` in Rust.
fn rust_type(kind: &str) -> String {
    match kind {
        "uint64_t" => "u64".to_string(),
        "uint32_t" => "u32".to_string(),
        "uint8_t" => "u8".to_string(),
        "uintptr_t" => "usize".to_string(),
        "bool" => "bool".to_string(),
        other => match other.strip_prefix("rcl_") {
            Some(name) => name[..1].to_uppercase() + &name[1..],
            None => panic!("an unknown type: {other}"),
        },
    }
}

/// `const uint8_t *text`, `uint8_t *kinds` or `uint32_t doc`.
fn c_argument(argument: &str) -> Named {
    let argument = words(argument);
    let (kind, name) = argument.rsplit_once(' ').expect("A type and a name.");
    match (kind.strip_prefix("const "), name.strip_prefix('*')) {
        (Some(kind), Some(name)) => (name.to_string(), format!("*const {}", rust_type(kind))),
        (None, Some(name)) => (name.to_string(), format!("*mut {}", rust_type(kind))),
        _ => (name.to_string(), rust_type(kind)),
    }
}

/// `uint64_t low, high`.
fn c_fields(field: &str) -> Vec<Named> {
    let field = words(field);
    let Some((kind, names)) = field.split_once(' ') else {
        return Vec::new();
    };
    let named = names
        .split(", ")
        .map(|name| (name.to_string(), rust_type(kind)));
    named.collect()
}

fn declared_in_c(source: &str) -> Declared {
    let source = without_directives(&without_block_comments(source));
    let mut declared = Declared::default();
    for (head, _) in each(&source, "typedef struct ", '}') {
        let (name, fields) = head.split_once('{').expect("A struct has fields.");
        let fields = fields.split(';').flat_map(c_fields).collect();
        declared.structs.insert(rust_type(name.trim()), fields);
    }
    for call in source.split(';').filter_map(|part| part.split_once('(')) {
        let mut before = call.0.split_whitespace().rev();
        let (name, result) = (before.next().unwrap(), before.next().unwrap());
        let arguments = call
            .1
            .trim_end()
            .trim_end_matches(')')
            .split(',')
            .map(c_argument);
        let call = (arguments.collect(), rust_type(result));
        declared.calls.insert(name.to_string(), call);
    }
    declared
}

/// The names of the kinds in order, each with its code.
fn enumerators(source: &str) -> Vec<(String, u8)> {
    let source = without_block_comments(source);
    let mut enums = each(&source, "enum rcl_kind {", '}');
    let (body, _) = enums.next().expect("The kinds have names.");
    let named = body.split(',').map(|enumerator| {
        let (name, code) = enumerator.split_once('=').expect("Each has its code.");
        let code = words(code).parse().expect("A code is a number.");
        (words(name), code)
    });
    named.collect()
}

/// `LineComment` is `RCL_LINE_COMMENT`, and `LParen` `RCL_LPAREN`: an underscore stands before
/// a capital that follows a small letter.
fn c_name(kind: Kind) -> String {
    let (mut name, mut after_small) = ("RCL_".to_string(), false);
    for letter in format!("{kind:?}").chars() {
        if after_small && letter.is_uppercase() {
            name.push('_');
        }
        after_small = letter.is_lowercase();
        name.push(letter.to_ascii_uppercase());
    }
    name
}

/// What a macro stands for, without casts and spaces.
fn defined(source: &str, name_and_parameters: &str) -> String {
    let start = format!("#define {name_and_parameters} ");
    let (formula, _) = each(source, &start, '\n').next().expect("It is defined.");
    formula.replace("(uint64_t)", "").replace(' ', "")
}

/// A formula's text without spaces, and its value: C and Rust read it alike.
macro_rules! formula {
    ($formula:expr) => {
        (stringify!($formula).replace(' ', ""), $formula)
    };
}

fn header_text() -> String {
    read(&top().join("include/rcl.h"))
}

fn header() -> Declared {
    declared_in_c(&header_text())
}

fn exports() -> Declared {
    let folders = ["crates/rcl/src", "crates/words/src"].map(|folder| top().join(folder));
    let files = folders
        .iter()
        .flat_map(|folder| fs::read_dir(folder).expect("The exports and their structs."));
    let sources = files.map(|file| read(&file.expect("It can be listed.").path()));
    declared_in_rust(&sources.collect::<Vec<_>>().join("\n"))
}

/// The body of each example in bindings/c/calls.c, by the call that it is named after.
fn examples() -> BTreeMap<String, String> {
    let source = read(&top().join("bindings/c/calls.c"));
    let found = source.split("\nstatic void example_").skip(1);
    let examples = found.map(|rest| {
        let (example, _) = rest.split_once("\n}\n").expect("It is closed.");
        let (name, body) = example.split_once("(void) {\n").expect("It has a body.");
        (name.to_string(), body.to_string())
    });
    examples.collect()
}

#[test]
fn the_header_and_rust() {
    let (header, raw) = (header(), declared_in_rust(include_str!("../src/raw.rs")));
    assert_eq!(header.calls.len(), 14);
    assert_eq!(header.structs.len(), 9);
    assert_eq!(header.calls, raw.calls);
    assert_eq!(header.structs, raw.structs);
}

#[test]
fn the_header_and_the_exports() {
    let (header, exports) = (header(), exports());
    let names = |declared: &Declared| declared.calls.keys().cloned().collect::<Vec<_>>();
    assert_eq!(names(&header), names(&exports));
    for (name, (arguments, result)) in &header.calls {
        let (slices, exported) = &exports.calls[name];
        let kinds: Vec<_> = arguments.iter().map(|(_, kind)| kind.clone()).collect();
        assert_eq!(kinds, slices_taken_apart(slices), "{name}");
        compare_fields(name, &header.fields(result), &exports.fields(exported));
    }
}

/// The exports have names without `_`, and `output` for `in_output`.
fn compare_fields(call: &str, header: &[Named], exports: &[Named]) {
    assert_eq!(header.len(), exports.len(), "{call}");
    for ((name, kind), (exported, exported_kind)) in header.iter().zip(exports) {
        assert!(
            name.replace('_', "").ends_with(&exported[..]),
            "{call}: {name}"
        );
        assert_eq!(kind, exported_kind, "{call}: {name}");
    }
}

#[test]
fn the_header_and_the_examples() {
    let (header, examples) = (header(), examples());
    let calls: Vec<_> = header.calls.keys().collect();
    assert_eq!(calls, examples.keys().collect::<Vec<_>>());
    for (call, body) in &examples {
        assert!(body.contains(&format!("{call}(")), "{call}");
    }
}

#[test]
fn the_kind_codes() {
    let enumerators = enumerators(&header_text());
    assert_eq!(enumerators.len(), 60);
    for ((name, code), kind) in enumerators.into_iter().zip(Kind::ALL) {
        assert_eq!((name, code), (c_name(kind), kind.code()));
    }
}

#[test]
fn the_macros_for_spans() {
    let header = header_text();
    let spans = [
        (0, 0, 0),
        (1, 3, 2),
        (0xffff, 0x10000, 1),
        (0x0123_4567_89ab, 0xba98_7654_3210, 0xfedc_ba98),
        (LARGEST_OFFSET, LARGEST_OFFSET, u32::MAX),
    ];
    for (start, end, doc) in spans {
        let [low, high] = Span { start, end, doc }.pack().expect("It is a span.");
        assert_eq!(
            formula!(((low) & ((1 << 48) - 1))),
            (defined(&header, "RCL_SPAN_START(low)"), start as u64)
        );
        assert_eq!(
            formula!((((low) >> 48) | (((high) & ((1 << 32) - 1)) << 16))),
            (defined(&header, "RCL_SPAN_END(low, high)"), end as u64)
        );
        assert_eq!(
            formula!(((high) >> 32)),
            (defined(&header, "RCL_SPAN_DOC(high)"), u64::from(doc))
        );
    }
}
