//! Calls of handing back with their answers.

use judge::generate::parts::part;
use judge::generate::random::Random;
use judge::strings::hand::{handed, handed_or_empty};
use judge::strings::value::Held;
use judge::strings::{Refused, LONGEST};

use super::{hexadecimal, Line};

/// The text and the output, and a part of one of them.
pub struct Hand {
    pub text: Vec<u8>,
    pub output: Vec<u8>,
    pub part: Held,
}

impl Hand {
    pub fn handed(&self) -> Result<&[u8], Refused> {
        handed(&self.text, &self.output, self.part)
    }

    pub fn line(&self) -> Line {
        let (which, start, end) = match self.part {
            Held::Text { start, end } => (0, start, end),
            Held::Output { start, end } => (1, start, end),
        };
        let (output, text) = (hexadecimal(&self.output), hexadecimal(&self.text));
        let check = match self.handed() {
            Ok(_) => "given".to_string(),
            Err(Refused { number, at }) => format!("refused {number} {} {}", at.low, at.high),
        };
        let bytes = handed_or_empty(&self.text, &self.output, self.part);
        (
            format!("hand {which} {start} {end} {output} {text}"),
            format!("{check} ; {}", hexadecimal(bytes)),
        )
    }
}

const TEXT: &[u8] = b"f\"\"\"h\xc3\xa9 {x}\"\"\"";
const OUTPUT: &[u8] = b"moved";

/// Starts and ends, of both arrays.
const ENDS: [(u64, u64); 20] = [
    (0, 0),
    (0, 1),
    (1, 4),
    (2, 5),
    (5, 5),
    (0, 5),
    (4, 6),
    (6, 6),
    (3, 13),
    (0, 14),
    (14, 14),
    (13, 15),
    (15, 15),
    (1, 0),
    (15, 14),
    (2, LONGEST),
    (2, LONGEST + 1),
    (LONGEST + 1, LONGEST),
    (LONGEST, LONGEST),
    (0, u64::MAX),
];

/// The chosen parts of a text and an output, also of empty ones; and as many sampled ones.
pub fn calls(seed: u64, sampled: usize) -> Vec<Hand> {
    let mut calls = Vec::new();
    for (start, end) in ENDS {
        calls.push(call(TEXT, OUTPUT, Held::Text { start, end }));
        calls.push(call(TEXT, OUTPUT, Held::Output { start, end }));
    }
    for (start, end) in [(0, 0), (0, 1), (1, 0)] {
        calls.push(call(b"", OUTPUT, Held::Text { start, end }));
        calls.push(call(TEXT, b"", Held::Output { start, end }));
        calls.push(call(b"", b"", Held::Output { start, end }));
    }
    let mut random = Random::new(seed + 3);
    calls.extend((0..sampled).map(|_| by_hand(&mut random)));
    calls
}

fn call(text: &[u8], output: &[u8], part: Held) -> Hand {
    Hand {
        text: text.to_vec(),
        output: output.to_vec(),
        part,
    }
}

fn by_hand(random: &mut Random) -> Hand {
    let bytes = |random: &mut Random| {
        let len = random.below(61);
        (0..len).map(|_| random.byte()).collect::<Vec<u8>>()
    };
    let (text, output) = (bytes(random), bytes(random));
    let part = part(random, text.len(), output.len());
    Hand { text, output, part }
}
