//! The calls of include/rcl.h, and the arrays lent to them.

// Some of the calls are measured.
#[allow(dead_code)]
#[path = "../bindings/rust/src/raw.rs"]
mod raw;

use raw::{rcl_lex, rcl_tidy, rcl_utf8, rcl_value, rcl_walker_open, rcl_walker_step};
use raw::{Lexed, Refusal, Stepped, Valued};

pub fn is_utf8(text: &[u8]) -> bool {
    // The pointer and the length are those of a live slice.
    unsafe { rcl_utf8(text.as_ptr(), text.len()) == u64::MAX }
}

/// More than any of the texts nests, and more parts than any string in them has.
const STACK_PLACES: usize = 64;
const PART_PLACES: usize = 64;

/// The kind codes of QuoteOpen.
const QUOTE_OPEN: std::ops::RangeInclusive<u8> = 5..=8;

/// Kind codes and the two words of each span.
struct Places {
    kinds: Vec<u8>,
    words: Vec<u64>,
}

impl Places {
    fn touched(places: usize) -> Places {
        Places {
            kinds: vec![0xff; places],
            words: vec![u64::MAX; 2 * places],
        }
    }
}

/// A list, a stack, a parts list and an output, used again for each call.
pub struct Lent {
    list: Places,
    stack: Places,
    parts: Places,
    output: Vec<u8>,
}

// In each call every pointer is that of a live array with the length beside it,
// and no two arrays overlap.
impl Lent {
    /// Written once before the first call, so that no call waits for the system
    /// to supply the memory.
    pub fn touched(places: usize, output_len: usize) -> Lent {
        Lent {
            list: Places::touched(places),
            stack: Places::touched(STACK_PLACES),
            parts: Places::touched(PART_PLACES),
            output: vec![0xff; output_len],
        }
    }

    /// What lexing the accepted text counts.
    pub fn lex(&mut self, text: &[u8]) -> Lexed {
        let (list, stack) = (&mut self.list, &mut self.stack);
        let lexed = unsafe {
            rcl_lex(
                1,
                text.as_ptr(),
                text.len(),
                list.kinds.as_mut_ptr(),
                list.kinds.len(),
                list.words.as_mut_ptr(),
                list.words.len(),
                stack.kinds.as_mut_ptr(),
                stack.kinds.len(),
                stack.words.as_mut_ptr(),
                stack.words.len(),
            )
        };
        assert_eq!(lexed.refusal.refused, 0, "The texts are accepted.");
        lexed
    }

    /// How many bytes the tidy writer wrote, lexing included.
    pub fn tidy(&mut self, text: &[u8]) -> u64 {
        let (list, stack) = (&mut self.list, &mut self.stack);
        let tidied = unsafe {
            rcl_tidy(
                1,
                text.as_ptr(),
                text.len(),
                list.kinds.as_mut_ptr(),
                list.kinds.len(),
                list.words.as_mut_ptr(),
                list.words.len(),
                stack.kinds.as_mut_ptr(),
                stack.kinds.len(),
                stack.words.as_mut_ptr(),
                stack.words.len(),
                self.output.as_mut_ptr(),
                self.output.len(),
            )
        };
        assert_eq!(tidied.lexed.refusal.refused, 0, "The output is large enough.");
        tidied.written
    }

    /// The bytes of the values of all strings in the list of a text that was lexed
    /// just before. Those that are written stand one after the other in the output.
    pub fn values(&mut self, text: &[u8]) -> u64 {
        let (mut position, mut bytes) = (0, 0);
        for place in 0..self.list.kinds.len() {
            if !QUOTE_OPEN.contains(&self.list.kinds[place]) {
                continue;
            }
            let valued = self.value(text, place, position);
            assert_eq!(valued.refusal.refused, 0, "Every string has a value.");
            if valued.in_output == 1 {
                position = valued.end as usize;
            }
            bytes += valued.end - valued.start;
        }
        bytes
    }

    fn value(&mut self, text: &[u8], place: usize, position: usize) -> Valued {
        let (list, parts) = (&self.list, &mut self.parts);
        unsafe {
            rcl_value(
                text.as_ptr(),
                text.len(),
                list.kinds.as_ptr(),
                list.kinds.len(),
                list.words.as_ptr(),
                list.words.len(),
                list.kinds.len(),
                place,
                parts.kinds.as_mut_ptr(),
                parts.kinds.len(),
                parts.words.as_mut_ptr(),
                parts.words.len(),
                self.output.as_mut_ptr(),
                self.output.len(),
                position,
            )
        }
    }

    /// How many steps a walker takes from the start to the end, Spaces included.
    pub fn walk(&mut self, text: &[u8]) -> u64 {
        let opened = unsafe { rcl_walker_open(1, text.as_ptr(), text.len()) };
        let (mut position, mut depth, mut steps) = (0, 0, 0);
        loop {
            let stepped = self.step(text, &opened, position, depth);
            if stepped.answer != 0 {
                assert_eq!(stepped.answer, 1, "No step of the texts is refused.");
                assert_eq!(position, text.len(), "The walker ends at the end.");
                return steps;
            }
            position = stepped.position as usize;
            depth = stepped.depth as usize;
            steps += 1;
        }
    }

    fn step(&mut self, text: &[u8], opened: &Refusal, position: usize, depth: usize) -> Stepped {
        let stack = &mut self.stack;
        unsafe {
            rcl_walker_step(
                1,
                text.as_ptr(),
                text.len(),
                position,
                depth,
                opened.refused,
                opened.number as u8,
                opened.low,
                opened.high,
                stack.kinds.as_mut_ptr(),
                stack.kinds.len(),
                stack.words.as_mut_ptr(),
                stack.words.len(),
            )
        }
    }
}
