//! Spans, and the two words that hold one.

use std::fmt;
use std::ops::Range;

use crate::Refusal;

/// The largest offset, 2^48 - 1, which is also the most bytes that a text may have.
pub const LARGEST_OFFSET: usize = (1 << 48) - 1;

/// Where something stands: from `start` to before `end`, counted in bytes, in the document
/// with the id `doc`.
///
/// The library gives no span whose start is after its end, except where it gives back one
/// that it was given.
#[derive(Copy, Clone, Debug, Default, Eq, Hash, PartialEq)]
pub struct Span {
    /// The offset of the first byte.
    pub start: usize,
    /// The offset after the last byte.
    pub end: usize,
    /// The document's id.
    pub doc: u32,
}

impl Span {
    /// The two words of a span: low = start + (end mod 2^16) * 2^48, and
    /// high = end div 2^16 + doc * 2^32. Refusal 3 where the start is after the end or the end
    /// over 2^48 - 1.
    ///
    /// ```
    /// use rcl::Span;
    /// let span = Span { start: 1, end: 3, doc: 2 };
    /// assert_eq!(span.pack(), Ok([844424930131969, 8589934592]));
    /// let wrong = Span { start: 3, end: 1, doc: 2 };
    /// assert_eq!(wrong.pack().unwrap_err().number, 3);
    /// ```
    pub fn pack(self) -> Result<[u64; 2], Refusal> {
        if self.start > self.end || self.end > LARGEST_OFFSET {
            return Err(Refusal {
                number: 3,
                span: Span::default(),
                note: None,
            });
        }
        let (start, end) = (self.start as u64, self.end as u64);
        let low = start | (end & 0xffff) << 48;
        let high = end >> 16 | u64::from(self.doc) << 32;
        Ok([low, high])
    }

    /// The span that two words hold. Any two words hold one; its start may be after its end.
    ///
    /// ```
    /// use rcl::Span;
    /// let span = Span::unpack([844424930131969, 8589934592]);
    /// assert_eq!(span, Span { start: 1, end: 3, doc: 2 });
    /// ```
    pub fn unpack([low, high]: [u64; 2]) -> Span {
        Span {
            start: low as usize & LARGEST_OFFSET,
            end: (low >> 48 | (high & 0xffff_ffff) << 16) as usize,
            doc: (high >> 32) as u32,
        }
    }

    /// Its offsets as a range, to index a text with.
    ///
    /// ```
    /// let span = rcl::Span { start: 1, end: 3, doc: 0 };
    /// assert_eq!(&b"abcd"[span.range()], b"bc");
    /// ```
    pub fn range(self) -> Range<usize> {
        self.start..self.end
    }
}

impl fmt::Display for Span {
    fn fmt(&self, formatter: &mut fmt::Formatter<'_>) -> fmt::Result {
        write!(formatter, "{}-{}", self.start, self.end)
    }
}
