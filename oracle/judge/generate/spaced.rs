//! Lexemes of every kind with any whitespace between them or none: what re-spacing moves.

use super::random::Random;

/// Texts that are always tidied: document 01's example, each case of the gap rule, what
/// the readings name, whitespace of each kind, and refused texts.
pub const CHOSEN: [&[u8]; 62] = [
    b"a = f\"{b-1}\";",
    b"a = f\"{ b-1 }\" ;",
    b"",
    b" ",
    b"\n",
    b"\n\n",
    b" \n\n\t",
    b"a",
    b" a ",
    b"a\n\nb",
    b"a \n \n b",
    b"a\n\n\n\nb\n\n",
    b"\n\na",
    b"a\nb",
    b"a\tb\x0cc\rd\r\ne",
    b"a\r\n\r\nb",
    b"// c\n\nx",
    b"// c\nx",
    b"// c\r\nx",
    b"// c",
    b"//\n//\n",
    b"// c\n\n",
    b"x// c\ny",
    b"#! /x\na",
    b"#!",
    b"#!\n\na",
    b"a #! b\nc",
    b"#!a\n//b\n#!c",
    b"01",
    b"x-->y",
    b"a-b- -c",
    b"....",
    b". .",
    b"1...2.5",
    b"===>",
    b"a=b;c",
    b"{[()]}",
    b"let x=1;x",
    b"iff\"x\"",
    b"f \"x\"",
    b"0x1 0b1 1e5",
    b"\"\"",
    b"\"a\"",
    b"\"a\"\"b\"",
    b"\"a\\n\\u0041\\u{41}b\"",
    b"\" a \"",
    b"\"\"\"\n  a\n\n  b\n\"\"\"",
    b"f\"{}\"",
    b"f\"{ }{ }\"",
    b"f\"a{b}c{d}\\n{e}\"",
    b"f\"\"\"\n {x}\n\"\"\"",
    b"f\"{f\"{c}\"}\"",
    b"f\"{{a:\"b\"}}\"",
    b"f\"{a // }\n}\"",
    b"f\"{\n\n}\"",
    b"f\"{// c\n\n}\"",
    b"\"h\xc3\xa9\"// \xe6\x97\xa5",
    b"a (]",
    b"f\"{a // b}\"",
    b"a b $",
    b"\"a",
    b"a \xe2\x82A",
];

/// What may stand in a row outside strings.
const LEXEMES: [&str; 58] = [
    "a",
    "b-1",
    "_",
    "f",
    "u",
    "x",
    "e",
    "in",
    "not",
    "true",
    "let",
    "0",
    "1",
    "01",
    "9_",
    "0x1",
    "0xF_",
    "0b1",
    "0b_1",
    "1.5",
    "1e3",
    "2E-1_",
    "(",
    ")",
    "[",
    "]",
    "{",
    "}",
    "<",
    ">",
    "<=",
    ">=",
    "==",
    "!=",
    "->",
    "=>",
    "=",
    "!",
    "*",
    "+",
    ",",
    "-",
    "--",
    ".",
    "..",
    "...",
    "/",
    ":",
    ";",
    "|",
    "// c",
    "//",
    "#!",
    "#! /x",
    "\"\"",
    "\"a\"",
    "f\"\"",
    "\"\"\"q\"\"\"",
];

/// Strings and their pieces, with holes that are closed.
const STRINGS: [&str; 14] = [
    "\"a b\"",
    "\" \"",
    "\"\\n\\u0041\\u{41}\"",
    "\"\"\"\n  a\n  b\"\"\"",
    "\"\"\"a\"\"b\"\"\"",
    "f\"{a}\"",
    "f\"{ }{}\"",
    "f\" { a } \"",
    "f\"a{b}c\\n{d}\"",
    "f\"\"\"\n  {x}\n\n  y\"\"\"",
    "f\"{f\"{c}\"}\"",
    "f\"{{a: \"b\"}}\"",
    "f\"{a // }\n}\"",
    "f\"\"\"\"{x}\"\"\"",
];

const SPACES: [&str; 16] = [
    "", "", "", "", " ", " ", "  ", "\t", "\n", "\r\n", "\x0c", "\n\n", " \n\n ", "\r\n\r\n",
    "\n \t\n", "\n\n\n",
];

/// A row of lexemes, with about `longest` bytes at most. What it opens it closes again.
pub fn text(random: &mut Random, longest: usize) -> Vec<u8> {
    let full = random.below(longest + 1);
    let mut out = String::new();
    let mut due = Vec::new();
    out.push_str(random.pick(&SPACES));
    while out.len() < full {
        lexeme(random, &mut out, &mut due);
        out.push_str(random.pick(&SPACES));
    }
    while let Some(closer) = due.pop() {
        end_comment(&mut out);
        out.push_str(closer);
        out.push_str(random.pick(&SPACES));
    }
    out.into_bytes()
}

fn lexeme(random: &mut Random, out: &mut String, due: &mut Vec<&'static str>) {
    let lexeme = match random.once_in(5) {
        true => random.pick(&STRINGS),
        false => random.pick(&LEXEMES),
    };
    match lexeme {
        "(" => due.push(")"),
        "[" => due.push("]"),
        "{" => due.push("}"),
        ")" | "]" | "}" => {
            end_comment(out);
            return out.push_str(due.pop().unwrap_or(""));
        }
        _ => {}
    }
    out.push_str(lexeme);
}

/// A closer in a comment would close nothing.
fn end_comment(out: &mut String) {
    let line = out.rsplit('\n').next().unwrap_or("");
    if line.contains("//") || line.contains("#!") {
        out.push('\n');
    }
}
