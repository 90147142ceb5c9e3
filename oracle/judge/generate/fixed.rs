//! Texts that are always compared: the examples of document 01, the small texts
//! that its readings name, each refusal at least once, each ASCII byte alone, the
//! ends of UTF-8's ranges, and runs about as long as the blocks that are searched at once.

use super::utf8;

pub fn texts() -> Vec<Vec<u8>> {
    let lists: [&[&[u8]]; 5] = [
        EXAMPLES,
        READINGS,
        REFUSED_OUTSIDE,
        REFUSED_INSIDE,
        SURPRISES,
    ];
    let listed = lists.concat().into_iter().map(<[u8]>::to_vec);
    let bytes = (0x00..=0x7f).map(|byte| vec![byte]);
    let texts = listed.chain(bytes).chain(utf8::texts());
    texts.chain(LENGTHS.iter().flat_map(|&n| runs(n))).collect()
}

/// Lengths of runs around 16, 48 and 64 bytes, and twice 48.
const LENGTHS: [usize; 15] = [15, 16, 17, 46, 47, 48, 49, 50, 62, 63, 64, 65, 95, 96, 97];

/// A run of so many bytes in each place where blocks are searched: in strings up to
/// each byte that can end a part, in a comment, and in whitespace; at the text's end
/// and with more behind it.
fn runs(n: usize) -> Vec<Vec<u8>> {
    let (letters, spaces) = ("x".repeat(n), " ".repeat(n));
    let texts = [
        format!("\"{letters}\""),
        format!("\"{letters}\" y"),
        format!("\"{letters}"),
        format!("\"{letters}\\t{letters}\\\""),
        format!("\"\"\"{letters}\n{letters}\n\n\"{letters}\"\"\""),
        format!("f\"{letters}{{a}}{letters}\""),
        format!("\"{letters}{{{letters}\""),
        format!("//{letters}"),
        format!("//{letters}\n//{letters}\ny"),
        format!("a{spaces}b\n{spaces}c"),
        format!("a{spaces}"),
    ];
    texts.map(String::into_bytes).to_vec()
}

/// The listing's example, the traps and the marked pairs, in the paper's order.
const EXAMPLES: &[&[u8]] = &[
    b"a = f\"{b-1}\";",
    b"a = f\"{ b-1 }\" ;",
    b"b-1",
    b"\x0b\n\x0b",
    b"f\"{a // b}\"\n}\"",
    b"",
    b"01",
    b"1..2",
    b"x-->y",
    b"1e+",
    b"0b_",
    b"\x0b\n",
    b"f\"{a // b}\"",
    b"(]",
    b"\"\\u{}\"",
    b"\"\\u{0000041}\"",
    b"\"\\u{000041}\"",
];

/// The texts that the readings of document 01 name.
const READINGS: &[&[u8]] = &[
    b"1._1",
    b"\"\\\r\"",
    b"u--",
    b"0_",
    b". .",
    b"\" \\n",
    b"\" \n",
    b"f\"{ }{ }\"",
    b"// c\n\nx",
    b"a----b",
    b"\"\"\"\"a\"\"\"",
    b"f\"\"\"{\"\"\"x\"\"\"}\"\"\"",
    b"#!",
    b"// c\n\n",
    b"// c\r\nx",
    b"f\"\"\"a\"{x}\"\"\"",
    b"\"\"",
    b"\"a\"",
    b"\"\\N\\u{}\"",
    b"\xe2\x82A",
    b"a #! b",
    b"9_",
    b"0_1",
    b"1else",
    b"  ",
];

/// Refusals 1, 10 to 17 and 23 to 25.
const REFUSED_OUTSIDE: &[&[u8]] = &[
    b"ab\x80",
    b"\xc3",
    b"\xed\xa0\x80",
    b"\xf4\x90\x80\x80",
    b"\x01\r\n\t\x7f x",
    b"a\x00",
    b"a\xc3\xa9\xe2\x82\xacb",
    b"\xe2\x80\x80\xc2\xbf\x7f",
    b"$",
    b"a ? b",
    b"\\",
    b"#",
    b"# !",
    b"0b",
    b"0b2",
    b"0x",
    b"0x__g",
    b"0xA@",
    b"0xa`",
    b"zZ@",
    b"az`",
    b"1.",
    b"0.e1",
    b"1e",
    b"1.5E-",
    b")",
    b" ]",
    b"}",
    b"(}",
    b"[)",
    b"{)",
    b"f\"{)\"",
    b"f\"{]\"",
    b"f\"{(}\"",
    b"(",
    b"[ ",
    b"{a",
];

/// Refusals 18 to 22 and 26 to 28.
const REFUSED_INSIDE: &[&[u8]] = &[
    b"\"\\u{",
    b"\"\\u{12",
    b"\"\\u{1g}\"",
    b"f\"\\u{12\"",
    b"\"\\u",
    b"\"\\u12\"",
    b"\"\\u123\"",
    b"\"\\u12g4\"",
    b"\"\\u0FG0\"",
    b"\"\\u9a:f\"",
    b"\"\\u{AFaf09G}\"",
    b"\"\\u{f@}\"",
    b"\"\\",
    b"\"\"\"\\",
    b"\"\\\n\"",
    b"f\"\\\r\n\"",
    b"\"\\\xc3\xa9\"",
    b"\"\\\xe2\x82\xac\xcc\x81\"",
    b"f\"\\\xf0\x9f\x98\x80\"",
    b"\"\\\xc2\x80\xc3\xbf\"",
    b"f\"{",
    b"f\"{a",
    b"f\"\"\"{ \"x\" ",
    b"\"",
    b"\"\"\"",
    b"\"\"\"\"",
    b"\"\"\"\"\"",
    b"f\"",
    b"f\"\"\"",
    b"f\"\"\"\"\"",
];

/// Accepted texts that are easy to get wrong.
const SURPRISES: &[&[u8]] = &[
    b"f\"{{}}\"",
    b"f\"}\"",
    b"\"{a}\"",
    b"f\"a{f\"b{f\"c{d}\"}\"}\"",
    b"\"\"\"a\"\"b\"\"\"",
    b"\"\"\"\"\"\"",
    b"\"\"\"\n  a\n\n  b\n\"\"\"",
    b"\"\x0b\n\x7f\"",
    b"\"\\uD800\"",
    b"\"\\u{}\\u12345\"",
    b"-1.5e-3",
    b"1.0_1e1_0_",
    b"0xdead_BEEF.x",
    b"0x_1 0b_1_",
    b"0b12",
    b"00.5",
    b"1...2.5",
    b"....",
    b".....",
    b"a-b- -c",
    b"not-in",
    b"in-",
    b"iff\"x\"",
    b"f \"x\"",
    b"ff\"{x}\"",
    b"== = => >= <= < > != ! ->",
    b"===>",
    b"<=>",
    b"a\n \n\tb",
    b"a  b",
    b"a \tb \nc",
    b"a \x0c",
    b"\"a b\" c d",
    b"f\"a b{c d}e f\" g",
    b"( a )",
    b"\"\n\n\n\"",
    b"f\"\"\"\n\n{\n\n}\n\n\"\"\"",
    b"a\r\n\r\nb",
    b"a\x0c\nb",
    b"\n\n",
    b"/ /",
    b"///",
    b"a//\xd0\xb9",
    b"#!/x\n#!",
    b"{[()]}",
    b"and assert else false for if import",
    b"in let not null or trace true _",
    b"* + , - . / : ; |",
    b"0xFG 0xfg 0x9: 0x0/ 0b12 0b1/ 19: 1/",
    b"Z[] z{} a9: a/ _a A_ 9Z 9z 9_z",
    b"\xef\xbb\xbfa",
];
