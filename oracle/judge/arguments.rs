//! The arguments that the programs share: `[--self-test] N SEED`.

pub struct Arguments {
    /// Make one expected answer wrong, to see that it is reported.
    pub self_test: bool,
    pub count: usize,
    pub seed: u64,
    pub rest: Vec<String>,
}

/// Read the arguments, or stop with the usage of the program.
pub fn arguments(usage: &str) -> Arguments {
    let mut words: Vec<String> = std::env::args().skip(1).collect();
    let self_test = words.iter().any(|word| word == "--self-test");
    words.retain(|word| word != "--self-test");
    let number = |at: usize| words.get(at).and_then(|word| word.parse::<u64>().ok());
    let (Some(count), Some(seed)) = (number(0), number(1)) else {
        eprintln!("usage: {usage}");
        std::process::exit(2);
    };
    Arguments {
        self_test,
        count: count as usize,
        seed,
        rest: words.split_off(2),
    }
}
