//! What a step is told that its walker keeps, in words.

use crate::refusal::Refusal;
use crate::source::{words, DocId, Span};
use crate::strings::Words;

/// Whether a refusal is kept, its number and its span: any words, also such as no opening
/// gives.
#[derive(Copy, Clone, Debug, Default, Eq, PartialEq)]
pub struct Told {
    pub kept: u64,
    pub number: u8,
    pub at: Words,
}

/// What the words say.
#[derive(Copy, Clone, Debug, Eq, PartialEq)]
pub enum Keeps {
    Nothing,
    Refusal(Refusal),
    /// Nothing that a walker can keep.
    Wrong,
}

impl Told {
    /// The words of what an opening keeps: 0 where there is nothing to say.
    pub fn of(kept: Option<Refusal>) -> Told {
        kept.map_or(Told::default(), |refusal| {
            let (low, high) = words::of(refusal.span);
            Told {
                kept: 1,
                number: refusal.number,
                at: Words { low, high },
            }
        })
    }

    /// The walker "keeps a refusal 2 or 1 met there and gives it at every step", and "Spans of
    /// a lexing call carry its document id, 0-0 too". So an opening with this id keeps nothing,
    /// 2 at 0-0, or 1 with the empty span where the bad sequence begins, and these words are
    /// right where they are those of one of the three.
    pub fn keeps(self, doc: DocId) -> Keeps {
        if self == Told::of(None) {
            return Keeps::Nothing;
        }
        let bad = self.at.start() as usize;
        let not_utf8 = Refusal::plain(1, Span::new(doc, bad, bad));
        let mut kept = [Refusal::at_start(2, doc), not_utf8].into_iter();
        let kept = kept.find(|refusal| self == Told::of(Some(*refusal)));
        kept.map_or(Keeps::Wrong, Keeps::Refusal)
    }
}
