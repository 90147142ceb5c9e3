//! The clock: works that take turns, and the least time of each.

use std::hint::black_box;
use std::time::{Duration, Instant};

/// A row ends after so many rounds, or earlier once it has taken so long.
const MOST_ROUNDS: usize = 200;
const LEAST_ROUNDS: usize = 1;
const ENOUGH_SECONDS: f64 = 0.1;

/// In each round a side runs so many times in a row, so that it finds in the
/// caches what it left there itself.
const IN_A_ROW: usize = 2;

/// One timing goes over at least so many bytes: a small text is read repeatedly.
const LEAST_BYTES: usize = 1 << 20;

/// From a program that has priority over all others the system may take a
/// twentieth of each second: it gets more than that between timings, so that it
/// takes nothing within one.
const BUSY_SECONDS: f64 = 0.2;
const REST_SHARE: f64 = 1.0 / 16.0;

/// A work that can be repeated, its last and its least seconds.
pub struct Side<'a> {
    name: &'static str,
    work: Box<dyn FnMut() + 'a>,
    last: f64,
    least: f64,
}

impl<'a> Side<'a> {
    pub fn new<T>(name: &'static str, mut work: impl FnMut() -> T + 'a) -> Side<'a> {
        Side {
            name,
            work: Box::new(move || {
                black_box(work());
            }),
            last: 0.0,
            least: f64::INFINITY,
        }
    }

    fn time(&mut self, repeats: usize) {
        let begun = Instant::now();
        for _ in 0..repeats {
            (self.work)();
        }
        self.last = begun.elapsed().as_secs_f64();
        self.least = self.least.min(self.last);
    }
}

/// What stands beside the times of a row.
pub struct Row<'a> {
    setting: &'a str,
    table: &'a str,
    name: &'a str,
    bytes: usize,
    lexemes: usize,
}

impl<'a> Row<'a> {
    pub fn new(setting: &'a str, table: &'a str, name: &'a str, bytes: usize) -> Row<'a> {
        Row {
            setting,
            table,
            name,
            bytes,
            lexemes: 0,
        }
    }

    pub fn with_lexemes(&self, lexemes: usize) -> Row<'a> {
        Row { lexemes, ..*self }
    }

    fn print(&self, side: &str, seconds: f64) {
        let (setting, table, name) = (self.setting, self.table, self.name);
        let (bytes, lexemes) = (self.bytes, self.lexemes);
        println!("{setting}\t{table}\t{name}\t{bytes}\t{lexemes}\t{side}\t{seconds:e}");
    }
}

pub struct Clock {
    rested: Instant,
}

impl Clock {
    pub fn new() -> Clock {
        Clock::rested_from(BUSY_SECONDS)
    }

    fn rested_from(seconds: f64) -> Clock {
        std::thread::sleep(Duration::from_secs_f64(seconds * REST_SHARE));
        Clock {
            rested: Instant::now(),
        }
    }

    /// Several rounds, the sides in turn, so that a busy machine hinders all.
    pub fn measure(&mut self, row: &Row, sides: &mut [Side]) {
        let repeats = LEAST_BYTES.div_ceil(row.bytes);
        let begun = Instant::now();
        for round in 0..MOST_ROUNDS {
            if round >= LEAST_ROUNDS && begun.elapsed().as_secs_f64() > ENOUGH_SECONDS {
                break;
            }
            sides.iter_mut().for_each(|side| self.turn(side, repeats));
        }
        let print = |side: &Side| row.print(side.name, side.least / repeats as f64);
        sides.iter().for_each(print);
    }

    fn turn(&mut self, side: &mut Side, repeats: usize) {
        for _ in 0..IN_A_ROW {
            self.rest_before(side.last);
            side.time(repeats);
        }
    }

    fn rest_before(&mut self, seconds: f64) {
        let busy = self.rested.elapsed().as_secs_f64() + seconds;
        if busy > BUSY_SECONDS {
            *self = Clock::rested_from(busy);
        }
    }
}
