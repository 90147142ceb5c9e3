//! Point 2 of document 02: a run of whitespace, "measured and its line ends
//! counted in one pass".

/// "The measuring answer": how long the run is, how many line ends it has, and
/// "the number of bytes looked at".
#[derive(Clone, Copy, Debug, PartialEq, Eq)]
pub struct Measured {
    pub length: usize,
    pub lines: usize,
    pub looked: usize,
}

/// The run at a position, by the pass itself: it "looks at each byte of the run
/// once" and counts what it looks at; the byte that follows ends it.
pub fn measured(text: &[u8], at: usize) -> Measured {
    let mut run = Measured {
        length: 0,
        lines: 0,
        looked: 0,
    };
    for byte in text.iter().skip(at) {
        run.looked += 1;
        if !byte.is_ascii_whitespace() {
            break;
        }
        run.length += 1;
        run.lines += usize::from(*byte == b'\n');
    }
    run
}
