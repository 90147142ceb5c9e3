//! Lists a text's lexemes: `cargo run --example first`, in bindings/rust.
use rcl::{lex, List, Stack};

fn main() {
    let given = std::env::args().nth(1);
    let text = given.as_deref().unwrap_or(r#"{ x = 12.5, note = "組織" }"#);
    let (mut kinds, mut words) = ([0; 64], [0; 128]);
    let (mut stack_kinds, mut stack_words) = ([0; 8], [0; 16]);
    let mut list = List::new(&mut kinds, &mut words);
    let mut stack = Stack::new(&mut stack_kinds, &mut stack_words);
    if let Err(refusal) = lex(1, text.as_bytes(), &mut list, &mut stack).answer {
        println!("refused {} {}", refusal.number, refusal.span);
        std::process::exit(1);
    }
    for lexeme in list.entries().iter() {
        println!("{} {}", lexeme.kind.code(), &text[lexeme.span.range()]);
    }
}
