//! One call on a string: what is given and what is lent.

use super::parts::{parted, Parted};
use super::value::{valued, Valued};
use super::{counted, entries, Entry};
use crate::reference::{answer, AMPLE};
use crate::source::DocId;

/// A text, a list with as many places as it has entries, the count that is said of it,
/// the opener's place, the places of the parts list, the output's length, a position.
#[derive(Clone, Debug, Default)]
pub struct Case {
    pub text: Vec<u8>,
    pub list: Vec<Entry>,
    pub count: usize,
    pub place: usize,
    pub room: usize,
    pub output: usize,
    pub position: usize,
}

impl Case {
    /// The list that the published lexer makes of the text, also of one that it refuses.
    /// Ample places, and an output that any value fits.
    pub fn lexed(text: &[u8], doc: u32, place: usize) -> Case {
        let list = entries(&answer(text, DocId(doc), AMPLE, AMPLE).listed);
        Case::ample(text, list, place)
    }

    pub fn ample(text: &[u8], list: Vec<Entry>, place: usize) -> Case {
        Case {
            text: text.to_vec(),
            count: list.len(),
            room: list.len(),
            list,
            place,
            output: text.len(),
            position: 0,
        }
    }

    /// The lexemes that count.
    pub fn listed(&self) -> &[Entry] {
        counted(&self.list, self.count)
    }

    /// What the parts call answers.
    pub fn parted(&self) -> Parted {
        parted(self.listed(), self.place, self.room)
    }

    /// What the value call answers, written to this output.
    pub fn valued(&self, output: &mut [u8]) -> Valued {
        let (list, place, room) = (self.listed(), self.place, self.room);
        valued(&self.text, list, place, room, output, self.position)
    }
}
