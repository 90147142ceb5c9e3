#!/usr/bin/env python3
"""Brings the repository's own definitions and lemmas to the spelling of the standard library: words in snake case, types and modules in camel case.

usage: python3 tools/respell.py          at the repository's top, once, right after the kit's port.py

1. Lemmas that port.py gave the very name of a definition of specs/ get `_lem` behind it (LEMMAS).
2. A name in mixed case that begins with a small letter becomes snake case: `isNotLF` is `is_not_lf`, `low-hexDigit` is `low-hex_digit`.
   Code has no such names, so clauses, definitions and lemmas are turned alike; text in quotes and bytes (b'E', 0xC2) stay.
   Of a comment only what stands between backquotes is turned.

The numbers of kinds, refusals and classes (rules' Kinds, Refusals, Bytes) keep their capitals: they are the names of the variants of the source's
enums, and in small letters some would fall together with the functions of the same things (`Unicode4`, `UnicodeDelim`, `Whitespace`, `NotUtf8`, `TooLong`).
"""
import glob
import re
import sys

WORD = re.compile(r"(?<![0-9A-Za-z_'])(?!b')[A-Za-z_][A-Za-z0-9_'-]*")
STD = re.compile(r"(shr|mut)_slice_[A-Z]|walk_[A-Z]|uint_[A-Z]")
LEMMAS = [
    ("crates/laws/proofs/Accounting.antt", "nothing_left"),
    ("crates/laws/proofs/SameParts.antt", "parts_from"),
    ("crates/lexer/proofs/Standing.antt", "room_after"),
    ("crates/laws/proofs/Values.antt", "value_written"),
    ("crates/laws/proofs/Walking.antt", "walked_step"),
    ("crates/laws/proofs/Calls.antt", "value_on"),
    ("crates/rules/proofs/Front.antt", "walked_end"),
    ("crates/rules/proofs/SpacesAside.antt", "room_after"),
]


def read(path):
    with open(path, encoding="utf-8") as f:
        return f.read()


def write(path, text):
    with open(path, "w", encoding="utf-8") as f:
        f.write(text)


def snake_word(word):
    if not re.match("[a-z]", word) or not re.search("[A-Z]", word):
        return word
    word = re.sub(r"(?<=[a-z0-9])(?=[A-Z])|(?<=[A-Z])(?=[A-Z][a-z])", "_", word)
    return word.lower()


def snake(name):
    if STD.match(name):
        return name
    return "-".join(snake_word(part) for part in name.split("-"))


def turned(text):
    return WORD.sub(lambda m: snake(m.group(0)), text)


def line_turned(line, mark):
    if re.match(r"^(ghost )?use (?!Rattle\.)|^(ghost )?use Rattle\.(std|core)\.", line):
        return line
    cut = re.search(mark, line)
    code, comment = (line[: cut.start()], line[cut.start() :]) if cut else (line, "")
    code = "".join(p if p.startswith('"') else turned(p) for p in re.split(r'("(?:[^"\\]|\\.)*")', code))
    return code + re.sub(r"`[^`]*`", lambda m: turned(m.group(0)), comment)


def main():
    for path, name in LEMMAS:
        text = read(path)
        if not any(snake(w) != w for w in WORD.findall(re.sub(r"--.*|\"[^\"]*\"|^use (?!Rattle).*", "", text, flags=re.M))):
            continue  # turned by an earlier run
        changed = re.sub(rf"(?<![\w'.-]){name}(?![\w'-])", name + "_lem", text)
        if changed == text:
            print(f"respell: {path} has no {name}", file=sys.stderr)
        write(path, changed)
    files = [p for d in ("specs", "proofs") for p in glob.glob(f"crates/*/{d}/**/*.antt", recursive=True)]
    for path in sorted(files) + sorted(glob.glob("crates/*/src/**/*.rt", recursive=True)):
        text = read(path)
        mark = r"(^|\s)--(\s|$)" if path.endswith(".antt") else "//"
        new = "\n".join(line_turned(line, mark) for line in text.split("\n"))
        if new != text:
            write(path, new)


main()
