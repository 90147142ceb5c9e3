//! The times that the drivers printed, the least of each row and side.

use std::collections::HashMap;

pub struct Row {
    pub table: String,
    pub name: String,
    pub bytes: f64,
    pub lexemes: u64,
    /// Seconds by setting and side.
    least: HashMap<(String, String), f64>,
}

impl Row {
    pub fn seconds(&self, setting: &str, side: &str) -> f64 {
        let key = (setting.to_string(), side.to_string());
        *self.least.get(&key).unwrap_or(&f64::NAN)
    }

    /// In 10^6 bytes a second.
    pub fn speed(&self, setting: &str, side: &str) -> f64 {
        self.bytes / self.seconds(setting, side) / 1e6
    }

    /// How many times as fast as another side ours is.
    pub fn ratio(&self, setting: &str, other: &str) -> f64 {
        self.seconds(setting, other) / self.seconds(setting, "ours")
    }

    fn note(&mut self, setting: &str, side: &str, seconds: f64) {
        let key = (setting.to_string(), side.to_string());
        let least = self.least.entry(key).or_insert(f64::INFINITY);
        *least = least.min(seconds);
    }
}

/// The rows in the order in which they were first measured.
pub fn read(printed: &str) -> Vec<Row> {
    let mut rows = Vec::new();
    for line in printed.lines() {
        let words: Vec<&str> = line.split('\t').collect();
        let [setting, table, name, bytes, lexemes, side, seconds] = words[..] else {
            panic!("This is no time: {line}");
        };
        let place = place_of(
            &mut rows,
            table,
            name,
            number(bytes),
            number(lexemes) as u64,
        );
        rows[place].note(setting, side, number(seconds));
    }
    rows
}

fn number(word: &str) -> f64 {
    word.parse().expect("The drivers print numbers.")
}

fn place_of(rows: &mut Vec<Row>, table: &str, name: &str, bytes: f64, lexemes: u64) -> usize {
    let same = |row: &Row| row.table == table && row.name == name;
    rows.iter().position(same).unwrap_or_else(|| {
        rows.push(Row {
            table: table.to_string(),
            name: name.to_string(),
            bytes,
            lexemes,
            least: HashMap::new(),
        });
        rows.len() - 1
    })
}
