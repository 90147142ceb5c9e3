//! The project's static library beside the judge: one kind of comparison, or all of them.

mod all;
mod calls;
mod escapes;
mod identifiers;
mod indents;
mod lex;
mod respacing;
mod room;
mod strings;
mod subject;
mod tally;
mod tidy;
mod told;
mod utf8;
mod values;
mod walker;

use std::process::ExitCode;

use judge::arguments::{arguments, Arguments};
use judge::report::Report;

/// A kind of comparison.
struct Kind {
    name: &'static str,
    /// What N is the number of.
    inputs: &'static str,
    run: fn(&Arguments) -> Report,
    share: Share,
}

/// How many inputs `all` gives it, in hundredths of N.
#[derive(Copy, Clone)]
enum Share {
    /// The library lexes them: these hundredths are N together.
    Lexed(usize),
    /// These are given beside them.
    Beside(usize),
}

#[rustfmt::skip]
const KINDS: [Kind; 11] = [
    Kind { name: "lex", inputs: "texts", run: lex::run, share: Share::Lexed(40) },
    Kind { name: "tidy", inputs: "texts", run: tidy::run, share: Share::Lexed(15) },
    Kind { name: "values", inputs: "texts", run: values::run, share: Share::Lexed(15) },
    Kind { name: "walker", inputs: "texts", run: walker::run, share: Share::Lexed(15) },
    Kind { name: "tally", inputs: "texts", run: tally::run, share: Share::Lexed(15) },
    Kind { name: "indents", inputs: "texts", run: indents::run, share: Share::Beside(20) },
    Kind { name: "respacing", inputs: "texts", run: respacing::run, share: Share::Beside(20) },
    Kind { name: "strings", inputs: "lists", run: strings::run, share: Share::Beside(30) },
    Kind { name: "escapes", inputs: "escapes", run: escapes::run, share: Share::Beside(10) },
    Kind { name: "identifiers", inputs: "names", run: identifiers::run, share: Share::Beside(20) },
    Kind { name: "utf8", inputs: "byte strings", run: utf8::run, share: Share::Beside(50) },
];

const USAGE: &str = "oracle/compare [--self-test] NAME N SEED";

fn main() -> ExitCode {
    let arguments = arguments(USAGE);
    let name = arguments.rest.first().map_or("", String::as_str);
    let kind = KINDS.iter().find(|kind| kind.name == name);
    let differences = match kind {
        Some(kind) => one(kind, &arguments).differences,
        None if name == "all" => all::run(&arguments),
        None => {
            eprintln!("usage: {USAGE}");
            return ExitCode::from(2);
        }
    };
    ExitCode::from((differences > 0) as u8)
}

fn one(kind: &Kind, arguments: &Arguments) -> Report {
    println!(
        "compare {} {} {}",
        kind.name, arguments.count, arguments.seed
    );
    let report = (kind.run)(arguments);
    report.print();
    report
}
