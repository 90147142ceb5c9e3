//! Lists of lexemes and stacks of openers, in arrays that the caller lends.

use crate::{Kind, Refusal, Span};

/// A lexeme, or a part of a string: its kind and where it stands.
#[derive(Copy, Clone, Debug, Eq, Hash, PartialEq)]
pub struct Lexeme {
    /// What it is.
    pub kind: Kind,
    /// Where it stands in the text.
    pub span: Span,
}

/// How many entries two parallel arrays have room for.
fn places(kinds: usize, words: usize) -> usize {
    kinds.min(words / 2)
}

/// A list that a call fills: kind codes in one array, the two words of each span in the
/// other. Its places are the smaller of the first length and half the second.
///
/// A call that fills a list begins at its first place, and leaves every place after what it
/// found as it was.
///
/// ```
/// let (mut kinds, mut words) = ([0; 8], [0; 13]);
/// let list = rcl::List::new(&mut kinds, &mut words);
/// assert_eq!(list.places(), 6);
/// assert!(list.entries().is_empty());
/// ```
#[derive(Debug)]
pub struct List<'m> {
    pub(crate) kinds: &'m mut [u8],
    pub(crate) words: &'m mut [u64],
    /// How many entries the last call put, each with a code of the 60.
    pub(crate) count: usize,
}

impl<'m> List<'m> {
    /// An empty list in these arrays. They keep their content until a call writes to them.
    pub fn new(kinds: &'m mut [u8], words: &'m mut [u64]) -> List<'m> {
        List {
            kinds,
            words,
            count: 0,
        }
    }

    /// How many entries it has room for.
    pub fn places(&self) -> usize {
        places(self.kinds.len(), self.words.len())
    }

    /// What the last call put into it, also where that call refused.
    pub fn entries(&self) -> Entries<'_> {
        Entries {
            kinds: self.kinds,
            words: self.words,
            count: self.count,
        }
    }
}

/// The entries of a list, to read.
///
/// ```
/// use rcl::{lex, Kind, List, Stack};
///
/// let (mut kinds, mut words) = ([0; 4], [0; 8]);
/// let mut list = List::new(&mut kinds, &mut words);
/// let lexed = lex(1, b"x = 5", &mut list, &mut Stack::new(&mut [], &mut []));
/// assert_eq!(lexed.answer, Ok(()));
/// assert_eq!(list.entries().len(), 3);
/// assert_eq!(list.entries().get(1).unwrap().kind, Kind::Eq1);
/// let spans: Vec<_> = list.entries().iter().map(|lexeme| lexeme.span.range()).collect();
/// assert_eq!(spans, [0..1, 2..3, 4..5]);
/// ```
#[derive(Copy, Clone, Debug)]
pub struct Entries<'m> {
    pub(crate) kinds: &'m [u8],
    pub(crate) words: &'m [u64],
    /// At most the places; the codes of so many entries are of the 60.
    pub(crate) count: usize,
}

impl<'m> Entries<'m> {
    /// The first `count` entries of arrays that were filled before, or as many as there are
    /// places. Each code is looked at once here, so that every entry has a kind: refusal 40,
    /// with the entry's span, for a code over 59.
    ///
    /// ```
    /// use rcl::{Entries, Kind};
    ///
    /// let entries = Entries::new(&[4], &[0, 0], 1).unwrap();
    /// assert_eq!(entries.get(0).unwrap().kind, Kind::Ident);
    /// assert_eq!(Entries::new(&[60], &[0, 0], 1).unwrap_err().number, 40);
    /// ```
    pub fn new(kinds: &'m [u8], words: &'m [u64], count: usize) -> Result<Entries<'m>, Refusal> {
        let count = count.min(places(kinds.len(), words.len()));
        let unknown = |code: &u8| Kind::from_code(*code).is_none();
        match kinds[..count].iter().position(unknown) {
            None => Ok(Entries {
                kinds,
                words,
                count,
            }),
            Some(place) => Err(Refusal {
                number: 40,
                span: Span::unpack([words[2 * place], words[2 * place + 1]]),
                note: None,
            }),
        }
    }

    /// How many there are.
    pub fn len(&self) -> usize {
        self.count
    }

    /// Whether there are none.
    pub fn is_empty(&self) -> bool {
        self.count == 0
    }

    /// The entry at a place, counted from 0; none from [`len`](Entries::len) on.
    pub fn get(&self, place: usize) -> Option<Lexeme> {
        if place >= self.count {
            return None;
        }
        let words = [self.words[2 * place], self.words[2 * place + 1]];
        Some(Lexeme {
            kind: Kind::from_code(self.kinds[place])?,
            span: Span::unpack(words),
        })
    }

    /// The entries in their order.
    pub fn iter(&self) -> impl Iterator<Item = Lexeme> + 'm {
        let entries = *self;
        (0..self.count).map_while(move |place| entries.get(place))
    }

    /// The places of the quotes that open a string, each of which
    /// [`value`](crate::value) can read.
    ///
    /// ```
    /// # use rcl::{lex, List, Stack};
    /// # let (mut kinds, mut words) = ([0; 16], [0; 32]);
    /// # let mut list = List::new(&mut kinds, &mut words);
    /// # let (mut stack_kinds, mut stack_words) = ([0; 1], [0; 2]);
    /// # let mut stack = Stack::new(&mut stack_kinds, &mut stack_words);
    /// let lexed = lex(1, br#"a = "b" + "c";"#, &mut list, &mut stack);
    /// assert_eq!(lexed.answer, Ok(()));
    /// let places: Vec<_> = list.entries().strings().collect();
    /// assert_eq!(places, [2, 6]);
    /// ```
    pub fn strings(&self) -> impl Iterator<Item = usize> + 'm {
        let opens = |lexeme: &Lexeme| lexeme.kind.is_quote_open();
        let numbered = self.iter().enumerate();
        numbered.filter_map(move |(place, lexeme)| opens(&lexeme).then_some(place))
    }
}

/// A stack of openers for a call that lexes, in two arrays like those of a [`List`]. A text
/// needs one place for each bracket, string and hole that is open at once.
///
/// ```
/// let (mut kinds, mut words) = ([0; 64], [0; 128]);
/// assert_eq!(rcl::Stack::new(&mut kinds, &mut words).places(), 64);
/// ```
#[derive(Debug)]
pub struct Stack<'m> {
    pub(crate) kinds: &'m mut [u8],
    pub(crate) words: &'m mut [u64],
}

impl<'m> Stack<'m> {
    /// A stack in these arrays.
    pub fn new(kinds: &'m mut [u8], words: &'m mut [u64]) -> Stack<'m> {
        Stack { kinds, words }
    }

    /// How many openers it has room for.
    pub fn places(&self) -> usize {
        places(self.kinds.len(), self.words.len())
    }

    /// The same arrays, lent on for a shorter time.
    pub(crate) fn lend(&mut self) -> Stack<'_> {
        Stack {
            kinds: self.kinds,
            words: self.words,
        }
    }
}
