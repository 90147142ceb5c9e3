//! All calls on strings beside document 01, on lists that the lexer made and on lists
//! made by hand: every word of the answers, and what every lent array holds afterwards.

use crate::calls::{Answer, Parted, Valued};
use crate::room::{Left, Places, Room};
use crate::values::Values;
use judge::arguments::Arguments;
use judge::generate::cases::Cases;
use judge::generate::chosen;
use judge::generate::random::Random;
use judge::report::{differing, quoted, Damage, Ends, Report};
use judge::source::DocId;
use judge::strings::case::Case;
use judge::strings::{counted, escapes, indent, published, Entry, Words};

/// Texts have about so many bytes at most; one in `LONG_ONCE_IN` has more.
const SHORT: usize = 60;
const LONG: usize = 600;
const LONG_ONCE_IN: usize = 50;

struct Comparison {
    report: Report,
    random: Random,
    room: Room,
    values: Values,
    others: Ends,
}

impl Comparison {
    fn compare(&mut self, case: &Case) {
        self.report.inputs.add();
        self.value(case);
        let parts = self.parts(case);
        self.indent(case);
        self.indent(&Case {
            text: case.text.clone(),
            count: parts.len(),
            list: parts,
            ..Case::default()
        });
        if let Some(lexeme) = self.some_lexeme(case) {
            self.scalar(case, lexeme);
            self.unescape(case, lexeme);
        }
        self.names(case);
    }

    /// Everything that the case says, and what is in the output before the call.
    fn lend(&mut self, case: &Case) -> Vec<u8> {
        let (room, random) = (&mut self.room, &mut self.random);
        room.text.put(random, &case.text);
        room.list.put(random, &case.list);
        room.parts.fill(random, case.room);
        room.output.fill(random.next(), case.output);
        room.output.inside().to_vec()
    }

    fn value(&mut self, case: &Case) {
        let mut output = self.lend(case);
        let valued = case.valued(&mut output);
        self.values.add(&valued.value);
        let found = self.room.value(case.count, case.place, case.position);
        let expected = Valued::of(&valued);
        self.record("value", case, expected, found, &valued.parts, &output);
    }

    fn parts(&mut self, case: &Case) -> Vec<Entry> {
        let output = self.lend(case);
        let parted = case.parted();
        let expected = Parted::of(&parted);
        self.others.add_number(expected.refusal.number as u8);
        let found = self.room.parts(case.count, case.place);
        self.record("parts", case, expected, found, &parted.parts, &output);
        parted.parts
    }

    fn indent(&mut self, case: &Case) {
        let expected = indent::indent(&case.text, counted(&case.list, case.count));
        let expected = Answer::of(expected.map(|spaces| spaces as u64));
        self.reading("indent", case, expected, |room| room.indent(case.count));
    }

    fn scalar(&mut self, case: &Case, lexeme: Entry) {
        let expected = escapes::scalar(&case.text, lexeme.at, lexeme.kind);
        let expected = Answer::of(expected.map(|scalar| scalar as u64));
        self.reading("scalar", case, expected, |room| room.scalar_value(lexeme));
    }

    /// A call that writes to no array.
    fn reading(
        &mut self,
        call: &str,
        case: &Case,
        expected: Answer,
        found: impl Fn(&mut Room) -> Answer,
    ) {
        self.others.add_number(expected.refusal.number as u8);
        let output = self.lend(case);
        let found = found(&mut self.room);
        self.record(call, case, expected, found, &[], &output);
    }

    fn unescape(&mut self, case: &Case, lexeme: Entry) {
        let mut output = self.lend(case);
        let Entry { kind, at } = lexeme;
        let written = escapes::unescape(&case.text, at, kind, &mut output, case.position);
        let expected = Answer::of(written.map(|bytes| bytes as u64));
        self.others.add_number(expected.refusal.number as u8);
        let found = self.room.unescape_into(lexeme, case.position);
        self.record("unescape", case, expected, found, &[], &output);
    }

    /// A lexeme of the list, sometimes with another kind: most often an escape.
    fn some_lexeme(&mut self, case: &Case) -> Option<Entry> {
        let escapes = case.list.iter().filter(|e| matches!(e.kind, 11..=13));
        let escapes: Vec<&Entry> = escapes.collect();
        let mut lexeme = match (&escapes[..], &case.list[..]) {
            ([], []) => return None,
            ([], list) => list[self.random.below(list.len())],
            (escapes, _) => *escapes[self.random.below(escapes.len())],
        };
        if self.random.once_in(4) {
            lexeme.kind = self.random.between(10, 14) as u8;
        }
        Some(lexeme)
    }

    /// The beginning of the text, as a name.
    fn names(&mut self, case: &Case) {
        let len = self.random.below(case.text.len().min(6) + 1);
        let bytes = &case.text[..len];
        self.room.text.put(&mut self.random, bytes);
        let found = (self.room.is_identifier(), self.room.is_keyword());
        let (identifier, keyword) = (
            published::is_identifier(bytes),
            published::is_keyword(bytes),
        );
        self.report
            .compare(bytes, identifier as u64, found.0 as u64);
        self.report.compare(bytes, keyword as u64, found.1 as u64);
    }

    /// Counts one call. `parts` and `output` are what the arrays must hold then.
    fn record<T: Damage + PartialEq + std::fmt::Debug>(
        &mut self,
        call: &str,
        case: &Case,
        expected: T,
        found: T,
        parts: &[Entry],
        output: &[u8],
    ) {
        let left = Left {
            text: &case.text,
            list: &case.list,
            parts,
            output,
            ..Left::default()
        };
        self.report.call(
            case.text.len() + case.list.len() + case.output,
            || named(call, case),
            expected,
            found,
            || self.room.wrong(&left),
        );
    }

    /// Marked pairs j and k through the exported calls: lexed, then valued.
    fn marked(&mut self) {
        let mut room = Room::new();
        for (text, expected) in chosen::MARKED {
            let found = lexed_and_valued(&mut room, text);
            let wrong = differing(&expected.map(<[u8]>::to_vec), &found);
            self.report.record(text, wrong);
        }
        self.report.calls += room.calls;
    }

    fn finish(mut self) -> Report {
        println!("{} lists", self.report.inputs.count());
        self.values.print(refusals());
        println!("other calls given: {}; refused:", self.others.accepted());
        self.others.print_refusals(refusals());
        self.report.calls += self.room.calls;
        self.report.ends = self.others;
        self.report.ends.add_all(&self.values.refused);
        self.report
    }
}

/// The value's bytes, or its refusal's number.
fn lexed_and_valued(room: &mut Room, text: &[u8]) -> Result<Vec<u8>, u8> {
    let random = &mut Random::new(0);
    room.text.put(random, text);
    room.lend_places(random, Places { list: 3, stack: 1 });
    room.parts.fill(random, 1);
    room.output.fill(random.next(), 1);
    let lexed = room.lex(DocId(7));
    let valued = room.value(lexed.lexemes as usize, 0, 0);
    let part = valued.start as usize..valued.end as usize;
    match (valued.refusal.refused, valued.in_output) {
        (0, 0) => Ok(text[part].to_vec()),
        (0, _) => Ok(room.output.inside()[part].to_vec()),
        _ => Err(valued.refusal.number as u8),
    }
}

/// Those that calls on strings can give.
fn refusals() -> impl Iterator<Item = u8> {
    [3, 31].into_iter().chain(40..=46).chain([50])
}

/// The call in one line: kinds and spans with the ids behind an `@`.
fn named(call: &str, case: &Case) -> String {
    let lexeme = |e: &Entry| {
        let Words { high, .. } = e.at;
        let (kind, start, end) = (e.kind, e.at.start(), e.at.end());
        format!(" {kind}:{start}-{end}@{}", high >> 32)
    };
    let list: String = case.list.iter().map(lexeme).collect();
    format!(
        "{call} {}, count {}, place {}, parts list of {}, output of {}, position {}, list{list}",
        quoted(&case.text),
        case.count,
        case.place,
        case.room,
        case.output,
        case.position
    )
}

pub fn run(arguments: &Arguments) -> Report {
    let mut comparison = Comparison {
        report: Report::new("strings", arguments),
        random: Random::new(!arguments.seed),
        room: Room::new(),
        values: Values::new(),
        others: Ends::new(),
    };
    comparison.marked();
    for case in chosen::cases() {
        comparison.compare(&case);
    }
    let mut short = Cases::new(arguments.seed, SHORT);
    let mut long = Cases::new(!arguments.seed, LONG);
    for number in 1..=arguments.count {
        let case = match number % LONG_ONCE_IN {
            0 => long.next_case(),
            _ => short.next_case(),
        };
        comparison.compare(&case);
    }
    comparison.finish()
}
