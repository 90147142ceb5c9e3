"""What is checked of the papers beside their made parts: links, paths, names of edits and theorems, and how long a line is."""
import re
import subprocess

import sources
from markdown import WIDEST

TOP = sources.TOP


def papers():
    """Every paper of the repository, also one that is not committed yet."""
    listed = subprocess.run(["git", "ls-files", "-co", "--exclude-standard", "*.md"], cwd=TOP, capture_output=True,
                            text=True, check=True)
    return [path for path in sorted(listed.stdout.split()) if (TOP / path).exists()]


def outside_code(text):
    """The lines with their numbers, but for those of code: fenced, or moved to the right by four and more after an empty line."""
    found, fence, indented, before = [], False, False, ""
    for number, line in enumerate(text.split("\n"), 1):
        if line.startswith("```"):
            fence = not fence
        else:
            indented = line.startswith("    ") and (indented or not before.strip()) and not in_item(found)
            if not fence and not indented:
                found.append((number, line))
        before = line
    return found


def in_item(found):
    """Whether the last text that is not empty belongs to an item of a list: what is moved to the right then belongs to it too."""
    last = next((line for _, line in reversed(found) if line.strip()), "")
    return bool(re.match(r"\s*([-*]|\d+\.) |\s+\S", last))


def widths(path, text):
    return [f"{path}:{number}: {len(line)} characters, at most {WIDEST}"
            for number, line in outside_code(text) if len(line) > WIDEST and not line.startswith("|")]


def anchors(path):
    """The names by which headings are linked to."""
    text = (TOP / path).read_text(encoding="utf-8")
    heads = [line.lstrip("#").strip() for _, line in outside_code(text) if re.match(r"#+ ", line)]
    return {re.sub(r"[^\w\- ]", "", head.lower()).replace(" ", "-") for head in heads}


def links(path, text):
    found = []
    for number, line in outside_code(text):
        for target in re.findall(r"\]\(([^)\s]+)\)", line):
            if not target.startswith("http") and not resolves(path, target):
                found.append(f"{path}:{number}: the link {target} leads nowhere")
    return found


def resolves(path, target):
    file, _, anchor = target.partition("#")
    goal = (TOP / path).parent / file if file else TOP / path
    if not goal.exists():
        return False
    return not anchor or anchor in anchors(goal.resolve().relative_to(TOP))


NAMED = re.compile(r"`((?:\.ci|bench|bin|bindings|crates|docs|examples|include|oracle)/[\w./*{},-]*)[ `]")


def paths(path, text):
    """A path of the repository in code letters is there. Words in capitals stand for any name."""
    found = []
    for number, line in outside_code(text):
        for named in NAMED.findall(line):
            if not re.search(r"/[A-Z]+(/|\.edit|$)", named) and not any(TOP.glob(named.rstrip("/"))):
                found.append(f"{path}:{number}: there is no {named}")
    return found


NAMES = {"theorem, or what the contract says", "definition", "of the definitions", "at the calls"}


def tables(text):
    """The rows of every table: number of the line, heads, cells."""
    heads = []
    for number, line in outside_code(text):
        cells = [cell.strip() for cell in line.strip("|").split("|")] if line.startswith("|") else []
        if heads and cells:
            yield number, heads, cells
        heads = (heads or cells) if cells else []


def theorems(path, text):
    """In a table whose last column has the file, the names under these heads are defined in that file; so is `NAME` in
    `FILE` elsewhere."""
    named = []
    for number, heads, cells in tables(text):
        files = re.findall(r"`(crates/[\w/]+\.\w+)`", cells[-1]) if heads[-1] == "file" else []
        if files:
            names = [name for head, cell in zip(heads, cells) if head in NAMES for name in re.findall(r"`([^`]+)`", cell)]
            named += [(number, name, files) for name in names]
    for number, line in outside_code(text):
        named += [(number, name, [file]) for name, file in re.findall(r"`([\w-]+)` in `(crates/[\w/]+\.\w+)`", line)]
    return [f"{path}:{number}: {name} is not defined in {', '.join(files)}"
            for number, name, files in named if not any(defines(sources.read(file), name) for file in files)]


def defines(text, name):
    """Whether a file defines a name, or a record with the fields that follow its name."""
    name, *fields = name.split(" ")
    head = rf"^\s*(?:abbrev |unfoldable )?(?:pub(?:\(crate\))? )?(?:record |data |struct |enum |fn |const )?{re.escape(name)}(?![\w′-])"
    begin = re.search(head, text, re.M)
    body = re.split(r"\n(?=\S)", text[begin.start():].lstrip("\n"), maxsplit=1)[0] if begin else ""
    return bool(begin) and all(re.search(rf"^  pub {field.lstrip('.')} :", body, re.M) for field in fields)


def edits_named(path, text):
    """Every name after the words "Rules out", and in a column of must-fail edits, is that of an edit, or of a call or a
    crate whose edits are meant."""
    known = {edit.name for edit in sources.edits()} | {call.name for call in sources.header()}
    known |= {crate.name for crate in sources.crates()}
    paragraphs = [paragraph for paragraph in text.split("\n\n") if paragraph.startswith("Rules out")]
    cells = [cell for _, heads, row in tables(text) for head, cell in zip(heads, row) if head == "must-fail edits"]
    return [f"{path}: there is no must-fail edit {name}"
            for part in paragraphs + cells for name in re.findall(r"`(\w+)`", part) if name not in known]


def sections(path, text):
    """docs/CALLS.md has a part for every exported call and every library with functions, docs/REQUESTS.md one for every
    request."""
    wanted = {
        "docs/CALLS.md": [f"<!-- made: call {call.name} -->" for call in sources.header()]
        + [f"<!-- made: functions {crate.name} -->" for crate in sources.crates()
           if not sources.is_program(crate.name) and sources.functions(crate.name) and crate.name != "rcl"],
        "docs/REQUESTS.md": [f"\n## Point {number}: " for number in range(1, 15)],
    }
    return [f"{path}: it has no `{part.strip()}`" for part in wanted.get(path, []) if part not in text]


def called(path, text):
    """The section of each call says its definition and what it rules out."""
    parts = re.split(r"^##+ ", text, flags=re.M) if path == "docs/CALLS.md" else []
    return [f"{path}: the section {part.split()[0]} has no paragraph `{words}`"
            for part in parts if part.startswith("rcl_") for words in ("Definition", "Rules out") if f"\n\n{words}" not in part]


def gate_kept():
    """docs/gate.txt has every crate and every edit that there is, and no other."""
    kept = {tuple(line.split(" ")[:3]) for line in sources.read("docs/gate.txt").split("\n") if line.startswith("edit ")}
    kept |= {tuple(line.split(" ")[:2]) for line in sources.read("docs/gate.txt").split("\n") if line.startswith("crate ")}
    there = {("edit", edit.crate, edit.name) for edit in sources.edits()}
    there |= {("crate", crate.name) for crate in sources.crates()}
    return [f"docs/gate.txt: {' '.join(item)} is not both in it and in crates/: run the gate, then docs/make --gate LOG"
            for item in sorted(kept ^ there)]


CHECKS = [widths, links, paths, theorems, edits_named, sections, called]


def found_in(path):
    text = (TOP / path).read_text(encoding="utf-8")
    return [line for check in CHECKS for line in check(path, text)]


def commands():
    """The commands that README.md shows with what they print."""
    found = []
    for line in sources.read("README.md").split("\n"):
        if line.startswith("    $ "):
            found.append((line[6:], []))
        elif found and line.startswith("    "):
            found[-1][1].append(line[4:])
        elif found and line.strip():
            found.append((None, []))
        elif found and found[-1][0]:
            found[-1][1].append("")
    return [(command, "\n".join(lines).strip("\n")) for command, lines in found if command and "".join(lines)]


def run_commands():
    """Runs them; the gate, which takes half an hour, is shown without what it prints."""
    found = []
    for command, shown in commands():
        done = subprocess.run(command, shell=True, cwd=TOP, capture_output=True, text=True)
        if done.stdout.strip("\n") != shown:
            found.append(f"README.md: `{command}` prints something else: {done.stdout[:200]!r} {done.stderr[-200:]!r}")
    return found
