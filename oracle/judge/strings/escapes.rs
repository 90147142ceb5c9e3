//! Escapes, as document 01 says them: the forms, the scalar values, the output.

use super::{bytes_of, check_span, write_piece, Refused, Result, Words};

/// The scalar value of an escape sequence. Checks in this order: 3, 40, 43, 44, 45,
/// 41, 42.
pub fn scalar(text: &[u8], at: Words, kind: u8) -> Result<char> {
    check_span(at)?;
    let bytes = bytes_of(text, at)?;
    let scalar = match (kind, bytes) {
        (11, [b'\\', byte]) => single(*byte),
        (12, [b'\\', b'u', digits @ ..]) if digits.len() == 4 && all_hex(digits) => hex(digits),
        (13, [b'\\', b'u', b'{', digits @ .., b'}']) if all_hex(digits) => hex(digits),
        _ => Err(40),
    };
    scalar.map_err(|number| Refused::new(number, at))
}

/// The same, and its UTF-8 written at the position: then 46 where it does not fit.
/// Answers how many bytes were written.
pub fn unescape(
    text: &[u8],
    at: Words,
    kind: u8,
    output: &mut [u8],
    position: usize,
) -> Result<usize> {
    let scalar = scalar(text, at, kind)?;
    let mut room = [0; 4];
    let piece = scalar.encode_utf8(&mut room).as_bytes();
    match write_piece(output, position, piece) {
        true => Ok(piece.len()),
        false => Err(Refused::new(46, at)),
    }
}

fn all_hex(bytes: &[u8]) -> bool {
    bytes.iter().all(u8::is_ascii_hexdigit)
}

/// RFC 8259's single letters, and the two braces; else the refusal's number.
fn single(byte: u8) -> std::result::Result<char, u8> {
    match byte {
        b'"' | b'\\' | b'/' | b'{' | b'}' => Ok(byte as char),
        b'b' => Ok('\u{8}'),
        b'f' => Ok('\u{c}'),
        b'n' => Ok('\n'),
        b'r' => Ok('\r'),
        b't' => Ok('\t'),
        b'A'..=b'Z' => Err(42),
        _ => Err(41),
    }
}

fn hex(digits: &[u8]) -> std::result::Result<char, u8> {
    match digits.len() {
        0 => Err(43),
        1..=6 => char::from_u32(number(digits)).ok_or(45),
        _ => Err(44),
    }
}

fn number(digits: &[u8]) -> u32 {
    let digit = |byte: &u8| (*byte as char).to_digit(16).expect("A hexadecimal digit.");
    digits.iter().fold(0, |sum, byte| 16 * sum + digit(byte))
}
