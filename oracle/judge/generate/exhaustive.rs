//! All short texts over the bytes that matter to the lexer, and random longer
//! ones over the same.

use super::random::Random;

/// Each unit is one or two bytes; the last two are never UTF-8.
const UNITS: [&[u8]; 29] = [
    b" ",
    b"\n",
    b"\"",
    b"\\",
    b"{",
    b"}",
    b"f",
    b"u",
    b"0",
    b"1",
    b"x",
    b"b",
    b"e",
    b".",
    b"-",
    b"_",
    b"/",
    b"#",
    b"!",
    b"(",
    b")",
    b"]",
    b"=",
    b">",
    b"\x0b",
    b"\x7f",
    b"\xc3\xa9",
    b"\x80",
    b"\xff",
];

const UTF8_UNITS: usize = UNITS.len() - 2;

/// Counts through all texts, shorter ones first, from the empty one on.
pub struct Exhaustive {
    digits: Vec<usize>,
}

impl Exhaustive {
    pub fn new() -> Exhaustive {
        Exhaustive { digits: Vec::new() }
    }

    pub fn next_text(&mut self) -> Vec<u8> {
        let text = join(&self.digits);
        self.count();
        text
    }

    fn count(&mut self) {
        for digit in self.digits.iter_mut().rev() {
            *digit += 1;
            if *digit < UNITS.len() {
                return;
            }
            *digit = 0;
        }
        self.digits.push(0);
    }
}

fn join(digits: &[usize]) -> Vec<u8> {
    digits.iter().flat_map(|d| UNITS[*d]).copied().collect()
}

/// One of the units, as something to insert into a text.
pub fn unit(random: &mut Random) -> &'static [u8] {
    UNITS[random.below(UNITS.len())]
}

/// Openers, so that many texts go on inside something.
const BEGINNINGS: [&[u8]; 9] = [
    b"", b"", b"", b"\"", b"f\"", b"\"\"\"", b"f\"\"\"", b"f\"{", b"[(",
];

/// An opener or nothing, and then three units or more. Most leave out the bytes
/// that are never UTF-8, because refusal 1 would hide everything else.
pub fn random_text(random: &mut Random, longest: usize) -> Vec<u8> {
    let units = if random.once_in(8) {
        UNITS.len()
    } else {
        UTF8_UNITS
    };
    let most = (longest / 2).clamp(3, 24);
    let count = random.between(3, most);
    let digits: Vec<usize> = (0..count).map(|_| random.below(units)).collect();
    [random.pick(&BEGINNINGS), &join(&digits)].concat()
}
