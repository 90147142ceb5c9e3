//! The texts that the library lexes.

use crate::room::Room;
use judge::arguments::Arguments;
use judge::generate::accepted::Supply;
use judge::generate::any_doc;
use judge::generate::random::Random;
use judge::reference::{too_long, trace, Trace, LONGEST};
use judge::report::quoted;
use judge::source::DocId;

/// A text with its id and its steps.
pub struct Subject {
    pub text: Vec<u8>,
    pub doc: DocId,
    pub trace: Trace,
    /// The length that a call is told.
    len: usize,
}

/// Beside N texts there is a joined one for each so many, and one more.
const JOINED_ONCE_IN: usize = 5_000;

/// How many joined texts there are.
pub fn joined(arguments: &Arguments) -> usize {
    1 + arguments.count / JOINED_ONCE_IN
}

/// N texts, accepted or not, and the joined ones.
pub fn texts(arguments: &Arguments) -> impl Iterator<Item = Vec<u8>> {
    let (count, joined) = (arguments.count, joined(arguments));
    let mut supply = Supply::new(arguments.seed);
    (0..count + joined).map(move |number| match number < count {
        true => supply.any_text(),
        false => supply.any_joined(),
    })
}

/// Lengths that no text can have here.
const TOO_LONG: [usize; 3] = [LONGEST + 1, LONGEST + 2, 1 << 62];

impl Subject {
    pub fn new(text: Vec<u8>, doc: DocId) -> Subject {
        let trace = trace(&text, doc);
        Subject::traced(text, doc, trace)
    }

    /// The same where the steps are known.
    pub fn traced(text: Vec<u8>, doc: DocId, trace: Trace) -> Subject {
        Subject {
            len: text.len(),
            text,
            doc,
            trace,
        }
    }

    /// No text over the limit can be lent, so a call is told such lengths of a short one: it
    /// has to refuse by the length alone, without reading.
    pub fn too_long(random: &mut Random) -> [Subject; 3] {
        TOO_LONG.map(|len| {
            let doc = any_doc(random);
            Subject {
                text: b"\"".to_vec(),
                doc,
                trace: too_long(doc),
                len,
            }
        })
    }

    pub fn lend(&self, random: &mut Random, room: &mut Room) {
        room.text.put(random, &self.text);
        room.text.claim(self.len);
    }

    pub fn name(&self) -> String {
        format!("{}, id {}", quoted(&self.text), self.doc.0)
    }
}
