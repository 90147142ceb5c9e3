//! Demand 3 of the published lexer itself, without a call of the library: the counts of
//! accepted texts, and what re-spacing leaves of them.

use judge::arguments::Arguments;
use judge::codes::SPACE;
use judge::generate::accepted::{Accepted, Supply};
use judge::reference::{trace, within, Answer, Trace, AMPLE};
use judge::report::{differing, quoted, Report};
use judge::respace::{bytes_of, respaced};
use judge::source::DocId;

const DOC: DocId = DocId(1);
const OTHER_DOC: DocId = DocId(2);

#[derive(Default)]
struct Totals {
    texts: u64,
    bytes: usize,
    lexemes: usize,
    spaces: usize,
    changed: u64,
    longest: usize,
    deepest: usize,
}

impl Totals {
    fn add(&mut self, text: &[u8], answer: &Answer, spaced: &[u8]) {
        let counts = answer.counts;
        self.texts += 1;
        self.bytes += text.len();
        self.lexemes += counts.lexemes;
        self.spaces += counts.steps - counts.lexemes;
        self.changed += (text != spaced) as u64;
        self.longest = self.longest.max(text.len());
        self.deepest = self.deepest.max(counts.deepest);
    }

    fn print(&self, refused: u64) {
        println!("{} accepted texts, {refused} others left out", self.texts);
        println!("{} bytes, at most {} in a text", self.bytes, self.longest);
        println!("{} lexemes, {} dropped spaces", self.lexemes, self.spaces);
        println!("{} texts changed by re-spacing", self.changed);
        println!("deepest nesting: {}", self.deepest);
    }
}

/// What is wrong with the counts of an accepted text.
fn wrong_counts(text: &[u8], trace: &Trace, answer: &Answer) -> Option<String> {
    let counts = answer.counts;
    let spaces = trace.taken.iter().filter(|t| t.code == SPACE).count();
    let laws = [
        (counts.steps == counts.lexemes + spaces, "steps"),
        (counts.steps <= text.len(), "steps against bytes"),
        (
            counts.steps <= 2 * counts.lexemes + 1,
            "steps against lexemes",
        ),
        (
            2 * counts.deepest <= counts.lexemes,
            "deepest against lexemes",
        ),
        (
            counts.kept + counts.dropped == text.len(),
            "kept and dropped",
        ),
        (is_joined(text, trace), "the steps joined"),
    ];
    let broken = laws.iter().find(|(holds, _)| !holds)?;
    Some(format!("  {}: {counts:?}", broken.1))
}

/// Whether the steps, each beginning where the one before it ends, are the text.
fn is_joined(text: &[u8], trace: &Trace) -> bool {
    let mut end = 0;
    for taken in &trace.taken {
        if taken.span.start() != end {
            return false;
        }
        end = taken.span.end();
    }
    end == text.len()
}

/// What is wrong with the re-spaced text: it is accepted, has the same lexemes, and
/// re-spacing it changes nothing.
fn wrong_respaced(text: &[u8], answer: &Answer, spaced: &[u8]) -> Option<String> {
    let trace = trace(spaced, OTHER_DOC);
    if let Some(refusal) = trace.refusal {
        return Some(format!("  the re-spaced text is refused: {refusal:?}"));
    }
    let again = within(&trace, AMPLE, AMPLE);
    let (expected, found) = (lexemes(text, answer), lexemes(spaced, &again));
    if let Some(wrong) = differing(&expected, &found) {
        return Some(wrong);
    }
    let twice = respaced(spaced, &again.listed);
    if twice != spaced {
        return Some(format!("  re-spaced again: {}", quoted(&twice)));
    }
    wrong_counts(spaced, &trace, &again)
}

/// Kind codes and bytes.
fn lexemes<'a>(text: &'a [u8], answer: &Answer) -> Vec<(u8, &'a [u8])> {
    let lexemes = answer.listed.iter();
    lexemes.map(|l| (l.code, bytes_of(text, l))).collect()
}

pub fn run(arguments: &Arguments) -> Report {
    let mut report = Report::new("respacing", arguments);
    let mut supply = Supply::new(arguments.seed);
    let mut totals = Totals::default();
    for _ in 0..arguments.count {
        let Accepted { text, trace } = supply.next(DOC);
        report.inputs.add_text(&text);
        let mut answer = within(&trace, AMPLE, AMPLE);
        let spaced = respaced(&text, &answer.listed);
        totals.add(&text, &answer, &spaced);
        report.prepare(&mut answer);
        let wrong = wrong_counts(&text, &trace, &answer);
        let wrong = wrong.or_else(|| wrong_respaced(&text, &answer, &spaced));
        let name = || format!("{}, re-spaced {}", quoted(&text), quoted(&spaced));
        report.record_call(text.len(), name, wrong);
    }
    totals.print(supply.refused);
    report
}
