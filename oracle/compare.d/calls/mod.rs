//! The exported calls of include/rcl.h, and the judge's answers in the same words.

// Each program uses some of them.
#![allow(dead_code)]

#[path = "../../../bindings/rust/src/raw.rs"]
mod raw;

pub use raw::*;

use judge::reference::{self, Counts};
use judge::refusal::Refusal as Judged;
use judge::report::Damage;
use judge::respace;
use judge::source::words;
use judge::strings::value::Held;
use judge::strings::{self, Refused};
use judge::tally::Tally;
use judge::walker::{self, Given};

// What the judge answers, in the words that must come back: 0 where there is nothing to
// say.

impl Refusal {
    pub fn of(judged: Option<Judged>) -> Refusal {
        judged.map_or(Refusal::default(), |judged| {
            let (low, high) = words::of(judged.span);
            Refusal {
                refused: 1,
                number: judged.number as u64,
                low,
                high,
            }
        })
    }
}

impl Note {
    fn of(judged: Judged) -> Note {
        let (low, high) = judged.note.map_or((0, 0), words::of);
        Note {
            noted: judged.note.is_some() as u64,
            low,
            high,
        }
    }
}

impl Lexed {
    pub fn of(answer: &reference::Answer) -> Lexed {
        let counted = Lexed::counted(answer.counts);
        match answer.refusal {
            None => counted,
            Some(judged) => counted.refused(judged),
        }
    }

    fn counted(counts: Counts) -> Lexed {
        Lexed {
            lexemes: counts.lexemes as u64,
            steps: counts.steps as u64,
            kept: counts.kept as u64,
            dropped: counts.dropped as u64,
            deepest: counts.deepest as u64,
            ..Lexed::default()
        }
    }

    fn refused(self, judged: Judged) -> Lexed {
        Lexed {
            refusal: Refusal::of(Some(judged)),
            note: Note::of(judged),
            ..self
        }
    }
}

impl Tidied {
    pub fn of(tidied: &respace::Tidied) -> Tidied {
        Tidied {
            lexed: Lexed::of(&tidied.answer),
            written: tidied.written as u64,
        }
    }
}

impl Counted {
    pub fn of(answer: &reference::Answer, after: Tally) -> Counted {
        Counted {
            lexed: Lexed::of(answer),
            accepted: after.accepted,
            refused: after.refused,
            steps: after.steps,
        }
    }

    pub fn tally(&self) -> Tally {
        Tally {
            accepted: self.accepted,
            refused: self.refused,
            steps: self.steps,
        }
    }
}

impl Answer {
    pub fn of(answer: strings::Result<u64>) -> Answer {
        match answer {
            Ok(count) => Answer {
                count,
                ..Answer::default()
            },
            Err(refused) => Answer::refused(refused),
        }
    }

    fn refused(refused: Refused) -> Answer {
        let refusal = Refusal {
            refused: 1,
            number: refused.number as u64,
            low: refused.at.low,
            high: refused.at.high,
        };
        Answer { refusal, count: 0 }
    }
}

impl Parted {
    pub fn of(parted: &strings::parts::Parted) -> Parted {
        let answer = Answer::of(parted.closer.map(|place| place as u64));
        Parted {
            refusal: answer.refusal,
            closer: answer.count,
            parts: parted.parts.len() as u64,
        }
    }
}

impl Valued {
    pub fn of(valued: &strings::value::Valued) -> Valued {
        let (in_output, start, end) = match valued.value {
            Ok(Held::Text { start, end }) => (0, start, end),
            Ok(Held::Output { start, end }) => (1, start, end),
            Err(_) => (0, 0, 0),
        };
        let answer = Answer::of(valued.value.map(|_| 0));
        Valued {
            refusal: answer.refusal,
            in_output,
            start,
            end,
            parts: valued.parts.len() as u64,
        }
    }
}

impl Stepped {
    pub fn of(stepped: &walker::Stepped) -> Stepped {
        let given = match stepped.given {
            Given::Lexeme(lexeme) => {
                let (low, high) = words::of(lexeme.span);
                Stepped {
                    answer: 0,
                    number: lexeme.code as u64,
                    low,
                    high,
                    ..Stepped::default()
                }
            }
            Given::Ended => Stepped {
                answer: 1,
                ..Stepped::default()
            },
            Given::Refused(judged) => Stepped::refused(judged),
        };
        Stepped {
            position: stepped.after.position as u64,
            depth: stepped.after.depth as u64,
            ..given
        }
    }

    fn refused(judged: Judged) -> Stepped {
        let (low, high) = words::of(judged.span);
        Stepped {
            answer: 2,
            number: judged.number as u64,
            low,
            high,
            note: Note::of(judged),
            ..Stepped::default()
        }
    }
}

/// Which array a part is of, and its ends, as `rcl_hand_check` is given them.
pub fn part_words(part: Held) -> (u64, usize, usize) {
    match part {
        Held::Text { start, end } => (0, start as usize, end as usize),
        Held::Output { start, end } => (1, start as usize, end as usize),
    }
}

impl Damage for Lexed {
    fn damage(&mut self) {
        self.steps ^= 1;
    }
}

impl Damage for Tidied {
    fn damage(&mut self) {
        self.written ^= 1;
    }
}

impl Damage for Counted {
    fn damage(&mut self) {
        self.steps ^= 1;
    }
}

impl Damage for Answer {
    fn damage(&mut self) {
        self.count ^= 1;
    }
}

impl Damage for Parted {
    fn damage(&mut self) {
        self.closer ^= 1;
    }
}

impl Damage for Valued {
    fn damage(&mut self) {
        self.end ^= 1;
    }
}

impl Damage for Refusal {
    fn damage(&mut self) {
        self.number ^= 1;
    }
}

impl Damage for Stepped {
    fn damage(&mut self) {
        self.position ^= 1;
    }
}
