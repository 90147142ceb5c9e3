//! Calls on strings as theorems: what the definitions compute is the judge's answer.

use judge::refusal::Refusal;
use judge::source::Span;
use judge::strings::case::Case;
use judge::strings::value::Held;
use judge::strings::{published, Entry, Result, Words};

use super::hand::Hand;
use super::lent::MARK;
use super::tidy::Tidy;
use super::{indented, value_of, Call, Escape};

pub const HEADER: &str =
    "-- Written by oracle/definitions: what document 01 and the published Rust answer.
use Prim.Native.Nat.{ℕ}
use mathlib.Core.Path.{◌≡◌, refl}
use mathlib.Core.List.{List, [], ◌∷◌}
use mathlib.Core.Bool.{true, false}
use mathlib.Core.Option.{Option, none, some}
use Rattle.rules.specs.Spans.{Span, span, span_of}
use Rattle.rules.specs.Answers.{Answer, given, refuse, Verdict, refused, accepted}
use Rattle.rules.specs.Lent.{Arrays, arrays}
use Rattle.rules.specs.Names.{is_identifier, is_keyword}
use Rattle.rules.specs.Escapes.{Unescaped, escape_scalar, unescape}
use Rattle.rules.specs.Indent.{indent_call}
use Rattle.rules.specs.Parts.{PartsCall, parts_call}
use Rattle.rules.specs.Value.{Held, in_text, in_output, ValueCall, value_call, handed_part}
use Rattle.rules.specs.Tidy.{Tidied, tidying}
use Rattle.cases.specs.Computes.{computes}

abbrev unescaped : Answer ℕ → List ℕ → Unescaped
unescaped a out = record { answer = a; output = out }

abbrev parted : Answer ℕ → ℕ → Arrays → PartsCall
parted a n parts = record { answer = a; parts = n; arrays = parts }

abbrev valued : Answer Held → ℕ → Arrays → List ℕ → ValueCall
valued a n parts out = record { answer = a; parts = n; arrays = parts; output = out }

abbrev stop : (number : ℕ) → Span → Option Span → Verdict
stop n s note = refused (record { number = n; at = s; note = note })

abbrev tidied : Verdict → (lexemes steps kept dropped deepest written : ℕ) → List ℕ → Tidied
tidied v a b c d e n out = record { lexed = record { verdict = v; lexemes = a; steps = b; kept = c; dropped = d; deepest = e }; written = n; output = out }
";

/// What is computed, and what it must be.
pub struct Equation {
    computed: String,
    answer: String,
}

pub fn theorem(name: &str, equation: &Equation) -> String {
    let Equation { computed, answer } = equation;
    format!("\n{name} : {computed} ≡ {answer}\nunfolding computes\n{name} = refl\n")
}

/// Makes the answer of the call in the middle wrong: that of a later call like it.
pub fn damage(equations: &mut [Equation]) {
    let (before, after) = equations.split_at_mut(equations.len() / 2);
    let middle = before.last_mut().expect("There are calls.");
    let definition = |equation: &Equation| equation.computed.split(' ').next().map(str::to_string);
    let alike = |other: &&Equation| {
        definition(other) == definition(middle) && other.answer != middle.answer
    };
    let other = after.iter().find(alike).expect("There is a call like it.");
    middle.answer = other.answer.clone();
}

pub fn equation(call: &Call) -> Equation {
    let (computed, answer) = match call {
        Call::Identifier(bytes) => (
            format!("is_identifier {}", list(bytes)),
            published::is_identifier(bytes).to_string(),
        ),
        Call::Keyword(bytes) => (
            format!("is_keyword {}", list(bytes)),
            published::is_keyword(bytes).to_string(),
        ),
        Call::Escape(escape) => escape_equation(escape),
        Call::Scalar(escape) => scalar_equation(escape),
        Call::Indent(case) => indent_equation(case),
        Call::Parts(case) => parts_equation(case),
        Call::Value(case) => value_equation(case),
        Call::Tidy(tidy) => tidy_equation(tidy),
        Call::Hand(hand) => hand_equation(hand),
    };
    Equation { computed, answer }
}

fn escape_equation(escape: &Escape) -> (String, String) {
    let (count, after) = escape.unescaped();
    let (lexeme, out) = (lexeme(escape), list(&vec![MARK; escape.output]));
    let (at, answer, after) = (escape.position, answer(&count), list(&after));
    (
        format!("unescape {lexeme} {out} {at}"),
        format!("unescaped {answer} {after}"),
    )
}

fn scalar_equation(escape: &Escape) -> (String, String) {
    (
        format!("escape_scalar {}", lexeme(escape)),
        answer(&escape.scalar()),
    )
}

/// Text, span and kind.
fn lexeme(escape: &Escape) -> String {
    let Entry { kind, at } = escape.lexeme;
    format!(
        "{} (span_of {} {}) {kind}",
        list(&escape.text),
        at.low,
        at.high
    )
}

fn indent_equation(case: &Case) -> (String, String) {
    let (text, parts, count) = (list(&case.text), arrays(&case.list), case.count);
    (
        format!("indent_call {text} {parts} {count}"),
        answer(&indented(case)),
    )
}

fn parts_equation(case: &Case) -> (String, String) {
    let parted = case.parted();
    let (count, parts) = (parted.parts.len(), filled(case, &parted.parts));
    let closer = answer(&parted.closer.map(|place| place as u64));
    (
        format!("parts_call {}", lists(case)),
        format!("parted {closer} {count} {parts}"),
    )
}

fn value_equation(case: &Case) -> (String, String) {
    let (valued, after) = value_of(case);
    let (count, parts) = (valued.parts.len(), filled(case, &valued.parts));
    let value = match valued.value {
        Ok(part) => format!("(given {})", place(part)),
        Err(refused) => answer(&Err(refused)),
    };
    let (text, out, at) = (
        list(&case.text),
        list(&vec![MARK; case.output]),
        case.position,
    );
    let (lists, after) = (lists(case), list(&after));
    (
        format!("value_call {text} {lists} {out} {at}"),
        format!("valued {value} {count} {parts} {after}"),
    )
}

fn place(part: Held) -> String {
    match part {
        Held::Text { start, end } => format!("(in_text {start} {end})"),
        Held::Output { start, end } => format!("(in_output {start} {end})"),
    }
}

fn tidy_equation(tidy: &Tidy) -> (String, String) {
    let (tidied, after) = tidy.tidied();
    let (doc, places, stack) = (tidy.doc.0, tidy.list, tidy.stack);
    let (text, out) = (list(&tidy.text), list(&vec![MARK; tidy.output]));
    let counts = tidied.answer.counts;
    let counts = [
        counts.lexemes,
        counts.steps,
        counts.kept,
        counts.dropped,
        counts.deepest,
        tidied.written,
    ];
    let counts = counts.map(|count| count.to_string()).join(" ");
    let verdict = verdict(tidied.answer.refusal);
    (
        format!("tidying {doc} {places} {stack} {text} {out}"),
        format!("tidied {verdict} {counts} {}", list(&after)),
    )
}

fn hand_equation(hand: &Hand) -> (String, String) {
    let (text, out, part) = (list(&hand.text), list(&hand.output), place(hand.part));
    let answer = match hand.handed() {
        Ok(bytes) => format!("(given {})", list(bytes)),
        Err(refused) => answer(&Err(refused)),
    };
    (format!("handed_part {text} {out} {part}"), answer)
}

/// What lexing says of a text, in the words of both headers.
pub fn verdict(refusal: Option<Refusal>) -> String {
    let Some(refusal) = refusal else {
        return "accepted".to_string();
    };
    let note = match refusal.note {
        Some(span) => format!("(some {})", written_span(span)),
        None => "none".to_string(),
    };
    format!(
        "(stop {} {} {note})",
        refusal.number,
        written_span(refusal.span)
    )
}

pub fn written_span(span: Span) -> String {
    format!("(span {} {} {})", span.doc().0, span.start(), span.end())
}

/// The list with its count and the opener's place, and the parts list before the call.
fn lists(case: &Case) -> String {
    let (list, count, place) = (arrays(&case.list), case.count, case.place);
    format!("{list} {count} {place} {}", filled(case, &[]))
}

/// The arrays of the parts list with these parts, every other cell 0.
fn filled(case: &Case, parts: &[Entry]) -> String {
    let mut all = vec![Entry::default(); case.room];
    all[..parts.len()].copy_from_slice(parts);
    arrays(&all)
}

fn arrays(entries: &[Entry]) -> String {
    let kinds: Vec<u8> = entries.iter().map(|e| e.kind).collect();
    let words: Vec<u64> = entries.iter().flat_map(|e| [e.at.low, e.at.high]).collect();
    format!("(arrays {} {})", list(&kinds), list(&words))
}

fn list<T: ToString>(items: &[T]) -> String {
    let items: String = items.iter().map(|item| item.to_string() + " ∷ ").collect();
    format!("({items}[])")
}

fn answer(answer: &Result<u64>) -> String {
    match answer {
        Ok(number) => format!("(given {number})"),
        Err(refused) => format!("(refuse {} {})", refused.number, span(refused.at)),
    }
}

fn span(at: Words) -> String {
    format!("(span {} {} {})", at.doc(), at.start(), at.end())
}
