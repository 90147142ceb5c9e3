//! What the programs `listing` and `tidy_main` write, beside the published lexer and document 01: on the files named, at
//! their limits, and on N generated texts.
//!   printed [--self-test] N SEED LISTING TIDY [FILE..]     LISTING and TIDY are the two programs

use std::io::{Read, Write};
use std::process::{Command, ExitCode, Stdio};

use judge::arguments::arguments;
use judge::generate::accepted::Supply;
use judge::reference::{answer, Answer, Listed, AMPLE};
use judge::refusal::Refusal;
use judge::report::{differing, quoted, Damage, Ends, Report};
use judge::respace::respaced;
use judge::source::{DocId, Span};

/// The limits that document 01 sets for the listing, and the tidy filter's own.
const LISTED_BYTES: usize = 4096;
const LIST: usize = 1024;
const STACK: usize = 64;
const TIDIED_BYTES: usize = 65536;

/// What a program writes to standard output and to standard error.
#[derive(Eq, PartialEq)]
struct Printed {
    output: Vec<u8>,
    errors: Vec<u8>,
}

impl Damage for Printed {
    fn damage(&mut self) {
        self.output.push(b'.');
    }
}

impl std::fmt::Debug for Printed {
    fn fmt(&self, to: &mut std::fmt::Formatter) -> std::fmt::Result {
        let (output, errors) = (self.output.escape_ascii(), self.errors.escape_ascii());
        write!(to, "`{output}`, on standard error `{errors}`")
    }
}

// What must be written.

/// The answer, with refusal 2 for a text over the program's limit.
fn limited(text: &[u8], bytes: usize, list: usize, stack: usize) -> Answer {
    let doc = DocId(0);
    if bytes < text.len() {
        let mut refused = answer(b"", doc, list, stack);
        refused.refusal = Some(Refusal::at_start(2, doc));
        return refused;
    }
    answer(text, doc, list, stack)
}

fn refused_line(refusal: &Refusal) -> String {
    let offsets = |span: Span| format!(" {} {}", span.start(), span.end());
    let note = refusal.note.map_or(String::new(), offsets);
    let (number, at) = (refusal.number, offsets(refusal.span));
    format!("refused {number}{at}{note}\n")
}

fn line(listed: &[Listed], entry: impl Fn(&Listed) -> String) -> String {
    let entries: Vec<String> = listed.iter().map(entry).collect();
    entries.join(" ") + "\n"
}

fn listing(text: &[u8], answer: &Answer) -> Printed {
    Printed {
        output: listing_lines(text, answer).into_bytes(),
        errors: Vec::new(),
    }
}

fn listing_lines(text: &[u8], answer: &Answer) -> String {
    let Some(refusal) = &answer.refusal else {
        let c = &answer.counts;
        let (bytes, lexemes, deepest) = (text.len(), c.lexemes, c.deepest);
        let sizes = format!("{bytes} {lexemes} {deepest} {} {}\n", c.steps, c.dropped);
        let kinds = line(&answer.listed, |l| l.code.to_string());
        let spans = line(&answer.listed, |l| {
            format!("{}-{}", l.span.start(), l.span.end())
        });
        return sizes + &kinds + &spans;
    };
    refused_line(refusal)
}

/// A refusal's line goes to standard error, so that what is kept of standard output is never taken for a text.
fn tidied(text: &[u8], answer: &Answer) -> Printed {
    match &answer.refusal {
        Some(refusal) => Printed {
            output: Vec::new(),
            errors: refused_line(refusal).into_bytes(),
        },
        None => Printed {
            output: respaced(text, &answer.listed),
            errors: Vec::new(),
        },
    }
}

// What is written.

fn all_of(mut from: impl Read) -> Vec<u8> {
    let mut bytes = Vec::new();
    from.read_to_end(&mut bytes).expect("It can be read.");
    bytes
}

/// What the program writes on a text. It may stop reading before the text ends, at its limit; what it writes to standard error is short.
fn run(program: &str, text: &[u8]) -> Printed {
    let mut child = Command::new(program)
        .stdin(Stdio::piped())
        .stdout(Stdio::piped())
        .stderr(Stdio::piped())
        .spawn()
        .expect("The program can be started.");
    let mut input = child.stdin.take().expect("Its input is a pipe.");
    let _ = input.write_all(text);
    drop(input);
    let printed = Printed {
        output: all_of(child.stdout.take().expect("Its output is a pipe.")),
        errors: all_of(child.stderr.take().expect("Its errors are a pipe.")),
    };
    let status = child.wait().expect("It ends.");
    assert!(status.success(), "{program} ended with {status}");
    printed
}

// The comparison.

struct Comparison {
    report: Report,
    listings: Ends,
    tidyings: Ends,
    listing: String,
    tidy: String,
}

impl Comparison {
    fn compare(&mut self, text: &[u8]) {
        let answer = limited(text, LISTED_BYTES, LIST, STACK);
        self.listings.add(&answer);
        let expected = listing(text, &answer);
        self.one(text, "listing", expected, run(&self.listing, text));
        let answer = limited(text, TIDIED_BYTES, AMPLE, AMPLE);
        self.tidyings.add(&answer);
        let expected = tidied(text, &answer);
        self.one(text, "tidy", expected, run(&self.tidy, text));
    }

    fn one(&mut self, text: &[u8], name: &str, mut expected: Printed, found: Printed) {
        self.report.prepare(&mut expected);
        let wrong = differing(&expected, &found);
        let call = || format!("{name} of {}", quoted(text));
        self.report.record_call(text.len(), call, wrong);
    }

    fn finish(self) -> ExitCode {
        for (name, ends) in [("listing", self.listings), ("tidy", self.tidyings)] {
            println!("{name}");
            ends.print_lexing();
        }
        self.report.print();
        ExitCode::from(u8::from(self.report.differences > 0))
    }
}

/// Texts at each limit, and one more.
fn at_limits() -> Vec<Vec<u8>> {
    let mut texts = Vec::new();
    for (byte, limit) in [
        (b' ', LISTED_BYTES),
        (b',', LIST),
        (b'(', STACK),
        (b' ', TIDIED_BYTES),
        (b',', TIDIED_BYTES),
        (b'(', TIDIED_BYTES),
    ] {
        texts.push(vec![byte; limit]);
        texts.push(vec![byte; limit + 1]);
    }
    // All of them at once, and accepted.
    let commas = vec![b','; LIST - 2 * STACK];
    let nested = [vec![b'('; STACK], commas, vec![b')'; STACK]].concat();
    let spaces = vec![b' '; LISTED_BYTES - nested.len()];
    texts.push([nested, spaces].concat());
    let half = TIDIED_BYTES / 2;
    texts.push([vec![b'['; half], vec![b']'; half]].concat());
    texts
}

fn main() -> ExitCode {
    let usage = "printed [--self-test] N SEED LISTING TIDY [FILE..]";
    let mut arguments = arguments(usage);
    if arguments.rest.len() < 2 {
        eprintln!("usage: {usage}");
        return ExitCode::from(2);
    }
    let files = arguments.rest.split_off(2);
    let tidy = arguments.rest.pop().unwrap();
    let listing = arguments.rest.pop().unwrap();
    let mut comparison = Comparison {
        report: Report::new("printed", &arguments),
        listings: Ends::new(),
        tidyings: Ends::new(),
        listing,
        tidy,
    };
    for file in &files {
        comparison.compare(&std::fs::read(file).expect("The file can be read."));
    }
    for text in at_limits() {
        comparison.compare(&text);
    }
    let mut supply = Supply::new(arguments.seed);
    for _ in 0..arguments.count {
        comparison.compare(&supply.any_text());
    }
    comparison.finish()
}
