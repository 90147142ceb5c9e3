//! The arrays that are lent to the exported calls, and the calls with them.

use crate::calls::*;
use judge::generate::random::Random;
use judge::generate::states::State;
use judge::lent::{Lent, LentList, LentText};
use judge::source::DocId;
use judge::strings::value::Held;
use judge::strings::Entry;
use judge::tally::Tally;

/// The places of list and stack.
#[derive(Copy, Clone, Debug)]
pub struct Places {
    pub list: usize,
    pub stack: usize,
}

/// The text and the arrays, used again for each call. A call is lent those that it takes.
pub struct Room {
    pub text: LentText,
    pub list: LentList,
    pub stack: LentList,
    pub parts: LentList,
    pub output: Lent<u8>,
    /// How many calls were made.
    pub calls: u64,
}

/// What the arrays must hold after a call: the output this; the lists these, and then what
/// they held before. Below the deepest nesting the stack may hold anything.
#[derive(Default)]
pub struct Left<'a> {
    pub text: &'a [u8],
    pub list: &'a [Entry],
    pub deepest: usize,
    pub parts: &'a [Entry],
    pub output: &'a [u8],
}

impl Room {
    pub fn new() -> Room {
        Room {
            text: LentText::new(),
            list: LentList::new("kinds", "words"),
            stack: LentList::new("stack_kinds", "stack_words"),
            parts: LentList::new("part_kinds", "part_words"),
            output: Lent::new("output"),
            calls: 0,
        }
    }

    /// List and stack anew, with a pattern in them.
    pub fn lend_places(&mut self, random: &mut Random, places: Places) {
        self.list.fill(random, places.list);
        self.stack.fill(random, places.stack);
    }

    /// What is wrong unless every array is as it must be.
    pub fn wrong(&self, left: &Left) -> Option<String> {
        self.text
            .wrong(left.text)
            .or_else(|| self.list.wrong_after(left.list))
            .or_else(|| self.stack.wrong_beyond(left.deepest))
            .or_else(|| self.parts.wrong_after(left.parts))
            .or_else(|| self.output.wrong_after(left.output.iter().copied()))
    }
}

/// A call. Among its arguments `[array]` is a pointer and a length, and `[[list]]` is two
/// arrays, kinds and words.
macro_rules! call {
    ($room:ident, $call:ident, $($argument:tt)*) => {{
        $room.calls += 1;
        pass!($room, $call, () $($argument)*,)
    }};
}

macro_rules! pass {
    // Each pointer is that of a live array of the room with at least the length passed
    // beside it, and no two overlap. One length is not such a one: `Subject::too_long`.
    ($room:ident, $call:ident, ($($passed:expr,)*)) => {
        unsafe { $call($($passed),*) }
    };
    ($room:ident, $call:ident, ($($passed:expr,)*) [[$list:ident]], $($more:tt)*) => {
        pass!($room, $call, (
            $($passed,)*
            $room.$list.kinds.pointer(),
            $room.$list.kinds.len(),
            $room.$list.words.pointer(),
            $room.$list.words.len(),
        ) $($more)*)
    };
    ($room:ident, $call:ident, ($($passed:expr,)*) [$array:ident], $($more:tt)*) => {
        pass!($room, $call, ($($passed,)* $room.$array.pointer(), $room.$array.len(),) $($more)*)
    };
    ($room:ident, $call:ident, ($($passed:expr,)*) $value:expr, $($more:tt)*) => {
        pass!($room, $call, ($($passed,)* $value,) $($more)*)
    };
}

#[rustfmt::skip]
impl Room {
    pub fn lex(&mut self, doc: DocId) -> Lexed {
        call!(self, rcl_lex, doc.0, [text], [[list]], [[stack]])
    }

    pub fn lex_tallied(&mut self, tally: Tally, doc: DocId) -> Counted {
        let Tally { accepted, refused, steps } = tally;
        call!(self, rcl_lex_tallied, accepted, refused, steps, doc.0, [text], [[list]], [[stack]])
    }

    pub fn tidy(&mut self, doc: DocId) -> Tidied {
        call!(self, rcl_tidy, doc.0, [text], [[list]], [[stack]], [output])
    }

    pub fn is_identifier(&mut self) -> bool {
        call!(self, rcl_is_identifier, [text])
    }

    pub fn is_keyword(&mut self) -> bool {
        call!(self, rcl_is_keyword, [text])
    }

    pub fn scalar_value(&mut self, lexeme: Entry) -> Answer {
        let Entry { kind, at } = lexeme;
        call!(self, rcl_scalar_value, [text], at.low, at.high, kind)
    }

    pub fn unescape_into(&mut self, lexeme: Entry, position: usize) -> Answer {
        let Entry { kind, at } = lexeme;
        call!(self, rcl_unescape_into, [text], at.low, at.high, kind, [output], position)
    }

    /// The list is taken for a parts list.
    pub fn indent(&mut self, parts: usize) -> Answer {
        call!(self, rcl_count_common_leading_spaces, [text], [[list]], parts)
    }

    pub fn parts(&mut self, lexemes: usize, place: usize) -> Parted {
        call!(self, rcl_parts, [[list]], lexemes, place, [[parts]])
    }

    pub fn value(&mut self, lexemes: usize, place: usize, position: usize) -> Valued {
        call!(self, rcl_value, [text], [[list]], lexemes, place, [[parts]], [output], position)
    }

    pub fn hand_check(&mut self, part: Held) -> Answer {
        let (which, start, end) = part_words(part);
        call!(self, rcl_hand_check, [text], [output], which, start, end)
    }

    pub fn open(&mut self, doc: DocId) -> Refusal {
        call!(self, rcl_walker_open, doc.0, [text])
    }

    /// A step from this state, whose text and stack are in the room.
    pub fn step(&mut self, state: &State) -> Stepped {
        let State { doc, before, told, .. } = *state;
        call!(self, rcl_walker_step, doc.0, [text], before.position, before.depth,
            told.kept, told.number, told.at.low, told.at.high, [[stack]])
    }
}
