"""The made parts of docs/EVIDENCE.md."""
import re
from collections import Counter

import sources
from markdown import fenced, number, table, wrapped


def counts(_):
    wrapper = [path.read_text(encoding="utf-8") for path in (sources.TOP / "bindings/rust").rglob("*.rs")]
    fences = sum(len(re.findall(r"^\s*//[/!] ```$", text, re.M)) for text in wrapper)
    crates = sources.crates()
    libraries = [crate.name for crate in crates if not sources.is_program(crate.name)]
    rows = [
        ("crates", len(crates)),
        ("of them programs", len(crates) - len(libraries)),
        ("public functions of the libraries, with those of traits", sum(len(sources.functions(name)) for name in libraries)),
        ("of them exported", len(sources.header())),
        ("refusals", len(sources.refusals())),
        ("must-fail edits", len(sources.edits())),
        ("tests of the Rust wrapper", sum(text.count("#[test]") for text in wrapper)),
        ("examples in its documentation", fences // 2),
    ]
    return table(["", ""], [(words, number(count)) for words, count in rows])


def archive(_):
    day, sha, toolchain = re.match(r"# (\S+), archive (\w+), (.*)", sources.read("oracle/record.txt")).groups()
    return wrapped(f"Run on {day}, with the archive whose sha256 is {sha}, proved and built from `crates/` by {toolchain}. "
                   "Everything that was printed is in [`oracle/record.txt`](../oracle/record.txt).")


def recorded():
    """The commands of oracle/record.txt, each with the lines that it printed."""
    found = []
    for line in sources.read("oracle/record.txt").split("\n")[1:]:
        if line.startswith("$ "):
            found.append((line[2:], []))
        elif found:
            found[-1][1].append(line)
    return found


def compared(_):
    """A row for each command: how much was compared, how much differed, and in how many seconds."""
    rows = []
    for command, printed in recorded():
        text = "\n".join(printed)
        differences = re.findall(r"^(\d+) differences?$", text, re.M)
        seconds = re.findall(r"^\((\d+) s\)$", text, re.M)[-1]
        rows.append((f"`{command}`", how_much(text), differences[-1] if differences else "", seconds))
    return table(["command", "compared", "differences", "seconds"], rows)


# How a program says how much it compared: in the last row of the table of `all`, in a line of its own, by cases or calls,
# or by tests.
SAID = [
    (r"^all(?: +[\d,]+)? +([\d,]+) +\d+ +[\d.]+$", ""),
    (r"^(\d+) compared$", ""),
    (r"(\d+) (?:cases$|calls on strings$)", ""),
    (r"(\d+) passed", " tests"),
]


def how_much(text):
    for pattern, words in SAID:
        found = re.findall(pattern, text, re.M)
        if found:
            return number(int(found[-1].replace(",", ""))) + words
    return ""


def compared_all(_):
    """What the last and largest of them printed, from its table on."""
    command, printed = recorded()[-1]
    begin = next(i for i, line in enumerate(printed) if line.startswith("kind"))
    end = next(i for i, line in enumerate(printed) if line.startswith("("))
    return f"`{command}`:\n\n" + fenced("\n".join(line.rstrip() for line in printed[begin:end]).rstrip())


def vectors(_):
    lines = sources.read("crates/vectors/stdin").split("\n")
    kinds = Counter(line.split(" ")[0] for line in lines if line and line[0] != "#")
    rows = [(f"`{kind}`", number(count)) for kind, count in kinds.items()]
    return table(["kind of call", "calls"], rows + [("all", number(sum(kinds.values())))])


def programs(_):
    rows = []
    for crate in sources.crates():
        if sources.is_program(crate.name):
            folder = sources.TOP / "crates" / crate.name
            rows.append((f"`{crate.name}`", crate.words, stored(folder / "stdin"), stored(folder / "stdout")))
    return table(["program", "what it is", "stored input", "stored answer"], rows)


def stored(path):
    """What a short file holds, of others how long it is."""
    text = path.read_text(encoding="utf-8")
    line = text.rstrip("\n")
    if line.strip() and "\n" not in line and len(line) <= 30:
        return f"`{line}`"
    return f"{number(len(text.encode()))} bytes"


def edits(_):
    rows = [(f"`{edit.crate}/{edit.name}`", f"`{edit.where}`", edit.wrong, edit.fact) for edit in sources.edits()]
    return table(["edit", "where", "the wrong program", "the fact that failed"], rows)


def gate(_):
    """From docs/gate.txt: after its first line `crate NAME FUNCTIONS` or `edit CRATE NAME` each."""
    proved, refused = {}, Counter()
    first, *rest = sources.read("docs/gate.txt").rstrip("\n").split("\n")
    for line in rest:
        kind, crate, field = line.split(" ")
        if kind == "crate":
            proved[crate] = int(field)
        else:
            refused[crate] += 1
    order = [crate.name for crate in sources.crates() if crate.name in proved]
    rows = [(f"`{crate}`", proved[crate], refused[crate] or "") for crate in order]
    rows.append(("all", sum(proved.values()), refused.total()))
    return wrapped(first[2:]) + "\n\n" + table(["crate", "functions proved", "must-fail edits refused"], rows)


def lines(_):
    names = [crate.name for crate in sources.crates()]
    alone = [name for name in names if not sources.is_program(name) or name == "vectors"]
    rows = [(f"`{name}`", *map(number, sizes(name))) for name in alone]
    rows.append(("the other programs", *map(number, totals(set(names) - set(alone)))))
    rows.append(("all", *map(number, totals(names))))
    return table(["crate", "code", "definitions", "proofs of functions", "laws"], rows)


def totals(names):
    return [sum(column) for column in zip(*map(sizes, names))]


def sizes(crate):
    """Lines of code, definitions, proofs of functions and laws: a function's proof stands in a folder of its name."""
    laws = count_lines(crate, "proofs/*.antt")
    proofs = count_lines(crate, "proofs/**/*.antt") - laws
    return count_lines(crate, "src/**/*.rt"), count_lines(crate, "specs/**/*.antt"), proofs, laws


def count_lines(crate, pattern):
    return sum(path.read_text(encoding="utf-8").count("\n") for path in (sources.TOP / "crates" / crate).glob(pattern))
