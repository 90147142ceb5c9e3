//! Writes the crate of cases: for each text a theorem that the definitions give
//! the judge's answer, which the prover decides by computing.
//!   definitions [--self-test] N SEED WHAT SPECS OUT INDEX
//! WHAT is `lexing` or `strings`, SPECS the folder of the definitions, OUT the one for
//! the cases' modules, INDEX the file that says what each case is about.

mod strings;

use std::fmt::Write;
use std::path::{Path, PathBuf};

use judge::arguments::{arguments, Arguments};
use judge::generate::random::Random;
use judge::generate::Texts;
use judge::reference::{trace, within, Answer, Listed, Trace};
use judge::report::Damage;
use judge::source::DocId;
use judge::whitespace::measured;
use strings::theorems::{self, verdict, written_span};
use strings::Call;

/// The prover computes slowly, so the texts are short.
const LONGEST: usize = 60;

/// More places than a text of that length can use.
const AMPLE: usize = 64;

/// Texts to a module: the prover reads a module whole.
const PER_MODULE: usize = 200;

const DOCS: [u32; 4] = [0, 1, 7, u32::MAX];

/// One theorem: a text, what is lent, and the answer.
struct Case {
    text: Vec<u8>,
    doc: DocId,
    list_places: usize,
    stack_places: usize,
    answer: Answer,
}

/// Two cases to a text: with ample memory, and with little.
fn cases(random: &mut Random, text: Vec<u8>) -> [Case; 2] {
    let doc = DocId(DOCS[random.below(DOCS.len())]);
    let trace = trace(&text, doc);
    let ample = case(&text, doc, &trace, AMPLE, AMPLE);
    let (list_places, stack_places) = little(random, &ample.answer);
    let small = case(&text, doc, &trace, list_places, stack_places);
    [ample, small]
}

fn case(text: &[u8], doc: DocId, trace: &Trace, list_places: usize, stack_places: usize) -> Case {
    Case {
        text: text.to_vec(),
        doc,
        list_places,
        stack_places,
        answer: within(trace, list_places, stack_places),
    }
}

/// Places around what the text needs: mostly one of the two is too few.
fn little(random: &mut Random, ample: &Answer) -> (usize, usize) {
    let lexemes = random.below(ample.counts.lexemes + 2);
    let deepest = random.below(ample.counts.deepest + 2);
    match random.below(4) {
        0 => (lexemes, AMPLE),
        1 => (AMPLE, deepest),
        2 => (ample.counts.lexemes, ample.counts.deepest),
        _ => (lexemes, deepest),
    }
}

/// The definitions that compute only where they are named, by module.
fn unfoldable(specs: &Path) -> Vec<(String, Vec<String>)> {
    let mut files: Vec<PathBuf> = std::fs::read_dir(specs)
        .expect("The folder of the definitions can be read.")
        .map(|entry| entry.expect("A file of the definitions.").path())
        .filter(|path| path.extension().is_some_and(|e| e == "antt"))
        .collect();
    files.sort();
    files
        .iter()
        .map(|path| (module_name(path), unfoldable_in(path)))
        .collect()
}

fn module_name(path: &Path) -> String {
    path.file_stem()
        .expect("A module has a name.")
        .to_string_lossy()
        .into_owned()
}

fn unfoldable_in(path: &Path) -> Vec<String> {
    let text = std::fs::read_to_string(path).expect("A module can be read.");
    let names = text
        .lines()
        .filter_map(|line| line.trim().strip_prefix("unfoldable pub "));
    names
        .filter_map(|line| line.split(' ').next())
        .map(str::to_string)
        .collect()
}

/// The module that the others unfold, so that everything computes.
fn computes(specs: &Path) -> String {
    let modules = unfoldable(specs);
    let mut out = String::from("-- To unfold `computes` is to unfold every definition.\n");
    out.push_str("use Prim.Native.Nat.{ℕ}\nuse mathlib.Core.List.{List}\n");
    out.push_str("use Rattle.rules.specs.Lexing.{Lexed}\n");
    for (module, names) in modules.iter().filter(|(_, names)| !names.is_empty()) {
        writeln!(
            out,
            "use Rattle.rules.specs.{module}.{{{}}}",
            names.join(", ")
        )
        .unwrap();
    }
    let names: Vec<String> = modules.into_iter().flat_map(|(_, names)| names).collect();
    out.push_str("\nunfoldable pub computes : (doc places stack : ℕ) → List ℕ → Lexed\n");
    writeln!(out, "unfolding {}\ncomputes = lexing", names.join(" ")).unwrap();
    out
}

const HEADER: &str = "-- Written by oracle/definitions: what the published Rust answers.
use Prim.Native.Nat.{ℕ}
use mathlib.Core.Path.{◌≡◌, refl}
use mathlib.Core.List.{List, [], ◌∷◌}
use mathlib.Core.Option.{Option, none, some}
use Rattle.rules.specs.Spans.{Span, span}
use Rattle.rules.specs.Answers.{Verdict, refused, accepted}
use Rattle.rules.specs.Lent.{Lexeme, lexeme}
use Rattle.rules.specs.Lexing.{Lexed, lexing, listing}
use Rattle.rules.specs.Measuring.{Measured, measured}
use Rattle.cases.specs.Computes.{computes}

abbrev lexed : Verdict → (lexemes steps kept dropped deepest : ℕ) → Lexed
lexed v a b c d e = record { verdict = v; lexemes = a; steps = b; kept = c; dropped = d; deepest = e }

abbrev stop : (number : ℕ) → Span → Option Span → Verdict
stop n s note = refused (record { number = n; at = s; note = note })

abbrev run : (length lines looked : ℕ) → Measured
run a b c = record { length = a; lines = b; looked = c }
";

fn written_list(items: impl Iterator<Item = String>) -> String {
    let mut out = String::new();
    for item in items {
        out.push_str(&item);
        out.push_str(" ∷ ");
    }
    format!("({out}[])")
}

fn written_bytes(text: &[u8]) -> String {
    written_list(text.iter().map(|byte| byte.to_string()))
}

fn written_lexemes(listed: &[Listed]) -> String {
    let lexeme = |l: &Listed| format!("lexeme {} {}", l.code, written_span(l.span));
    written_list(listed.iter().map(lexeme))
}

fn written_answer(answer: &Answer) -> String {
    let c = answer.counts;
    let verdict = verdict(answer.refusal);
    format!(
        "lexed {verdict} {} {} {} {} {}",
        c.lexemes, c.steps, c.kept, c.dropped, c.deepest
    )
}

/// The first run of whitespace, where there is one.
fn written_run(text: &[u8]) -> String {
    let at = text.iter().position(u8::is_ascii_whitespace).unwrap_or(0);
    let run = measured(text, at);
    let rest = written_bytes(&text[at..]);
    format!(
        "measured {rest} ≡ run {} {} {}",
        run.length, run.lines, run.looked
    )
}

fn written_case(name: &str, case: &Case) -> String {
    let (doc, list, stack) = (case.doc.0, case.list_places, case.stack_places);
    let call = format!("{doc} {list} {stack} {}", written_bytes(&case.text));
    let answer = written_answer(&case.answer);
    let lexemes = written_lexemes(&case.answer.listed);
    let run = written_run(&case.text);
    format!(
        "\n{name} : (lexing {call} ≡ {answer}) × (listing {call} ≡ {lexemes}) × ({run})\n\
        unfolding computes\n\
        {name} = (refl, refl, refl)\n"
    )
}

/// The line of the index by which a refused case is found and shown.
fn indexed(name: &str, case: &Case) -> String {
    let (len, text) = (case.text.len(), case.text.escape_ascii());
    let (doc, list, stack) = (case.doc.0, case.list_places, case.stack_places);
    format!("{name} {len} bytes `{text}`, id {doc}, list places {list}, stack places {stack}\n")
}

/// How many cases end with each refusal, and how many with none: 0.
fn print_counts(numbers: impl Iterator<Item = u8>) {
    let mut ends = [0; 64];
    for number in numbers {
        ends[number as usize] += 1;
    }
    println!("accepted: {}", ends[0]);
    let reached = ends
        .iter()
        .enumerate()
        .skip(1)
        .filter(|(_, count)| **count > 0);
    for (number, count) in reached {
        println!("refusal {number}: {count}");
    }
}

fn generated(arguments: &Arguments) -> Vec<Case> {
    let mut random = Random::new(!arguments.seed);
    let texts = Texts::new(arguments.seed, LONGEST).take(arguments.count);
    let mut cases: Vec<Case> = texts.flat_map(|text| cases(&mut random, text)).collect();
    if arguments.self_test {
        let middle = cases.len() / 2;
        cases[middle].answer.damage();
    }
    cases
}

/// One theorem with its name, and the index's line about it.
struct Written {
    theorem: String,
    index: String,
}

fn lexing_modules(arguments: &Arguments) -> Vec<Vec<Written>> {
    let cases = generated(arguments);
    println!("{} texts, {} cases", cases.len() / 2, cases.len());
    print_counts(
        cases
            .iter()
            .map(|case| case.answer.refusal.map_or(0, |r| r.number)),
    );
    in_modules(&cases, 2 * PER_MODULE, |name, case| Written {
        theorem: written_case(name, case),
        index: indexed(name, case),
    })
}

fn string_modules(arguments: &Arguments) -> Vec<Vec<Written>> {
    let calls = strings::calls(arguments.seed, arguments.count);
    println!("{} calls on strings", calls.len());
    print_counts(calls.iter().map(Call::number));
    let mut equations: Vec<_> = calls.iter().map(theorems::equation).collect();
    if arguments.self_test {
        theorems::damage(&mut equations);
    }
    let pairs: Vec<_> = calls.iter().zip(&equations).collect();
    in_modules(&pairs, PER_MODULE, |name, (call, equation)| Written {
        theorem: theorems::theorem(name, equation),
        index: format!(
            "{name} {} bytes and lexemes: {}\n",
            call.size(),
            call.line().0
        ),
    })
}

/// So many to a module, each with its name.
fn in_modules<T>(
    items: &[T],
    per_module: usize,
    written: impl Fn(&str, &T) -> Written,
) -> Vec<Vec<Written>> {
    let module = |(number, chunk): (usize, &[T])| {
        let places = chunk.iter().enumerate();
        let case = |(place, item)| written(&format!("case-{number}-{place}"), item);
        places.map(case).collect()
    };
    items.chunks(per_module).enumerate().map(module).collect()
}

fn write(path: PathBuf, content: &str) {
    std::fs::write(&path, content).unwrap_or_else(|e| panic!("{}: {e}", path.display()));
}

fn main() {
    let arguments = arguments("definitions [--self-test] N SEED WHAT SPECS OUT INDEX");
    let [what, specs, out, index_file] = [0, 1, 2, 3].map(|at| &arguments.rest[at][..]);
    let (header, modules) = match what {
        "strings" => (theorems::HEADER, string_modules(&arguments)),
        _ => (HEADER, lexing_modules(&arguments)),
    };
    let out = Path::new(out);
    let mut root = String::from("pub mod Computes\n");
    let mut index = String::new();
    for (number, module) in modules.iter().enumerate() {
        let theorems: String = module.iter().map(|written| &written.theorem[..]).collect();
        write(
            out.join(format!("Cases{number}.antt")),
            &format!("{header}{theorems}"),
        );
        writeln!(root, "pub mod Cases{number}").unwrap();
        index.extend(module.iter().map(|written| &written.index[..]));
    }
    write(out.join("Computes.antt"), &computes(Path::new(specs)));
    write(out.join("Lib.antt"), &root);
    write(PathBuf::from(index_file), &index);
}
