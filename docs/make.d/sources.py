"""What the papers are made from: crates, must-fail edits, functions with their contracts, the header, the examples."""
import re
from pathlib import Path
from typing import NamedTuple

TOP = Path(__file__).resolve().parents[2]


class Crate(NamedTuple):
    name: str
    stands_on: list
    words: str


class Edit(NamedTuple):
    crate: str
    name: str
    wrong: str
    fact: str
    where: str


class Function(NamedTuple):
    name: str
    file: str
    contracts: list


class Call(NamedTuple):
    name: str
    words: str
    prototype: str


def read(path):
    return (TOP / path).read_text(encoding="utf-8")


def found(text, where, what):
    """What was looked for; where it is missing, the papers cannot be made."""
    if text is None:
        raise SystemExit(f"{where}: there is no {what}")
    return text


def crates():
    """The crates in the order of crates.txt, with what the comment above says, of a program its own first lines."""
    listed, words = [], ""
    for line in read("crates.txt").split("\n"):
        if line.startswith("#"):
            words = line[2:]
        elif ":" in line:
            name, stands_on = line.split(":")
            name = name.removesuffix(" staticlib")
            listed.append(Crate(name, stands_on.split(), words or program_words(name)))
            words = ""
        else:
            words = ""
    return listed


def is_program(name):
    return (TOP / "crates" / name / "src/main.rt").exists()


def program_words(name):
    lines = []
    for line in read(f"crates/{name}/src/main.rt").split("\n"):
        if not line.startswith("// "):
            break
        lines.append(line[3:])
    return " ".join(lines)


def edits():
    """Every must-fail edit: the first line says the wrong program, the second the fact that the prover's log says failed."""
    order = {crate.name: place for place, crate in enumerate(crates())}
    for path in (TOP / "crates").glob("*/must-fail/*.edit"):
        found(order.get(path.parts[-3]), "crates.txt", f"line for {path.parts[-3]}")
    paths = sorted((TOP / "crates").glob("*/must-fail/*.edit"), key=lambda path: (order[path.parts[-3]], path.stem))
    return [edit(path) for path in paths]


def edit(path):
    lines = path.read_text(encoding="utf-8").split("\n")
    if not lines[0].startswith("# ") or not lines[1].startswith("# fact: "):
        raise SystemExit(f"{path.relative_to(TOP)}: line 1 is `# ` and the wrong program, line 2 `# fact: ` and the fact")
    crate = path.parts[-3]
    file = next(line[6:] for line in lines if line.startswith("file: "))
    old = next(line[5:] for line in lines if line.startswith("old: "))
    return Edit(crate, path.stem, lines[0][2:], lines[1][8:], enclosing(f"crates/{crate}/{file}", old))


CODE = re.compile(r'^[ \t]*(?:pub(?:\([^)]*\))? )?(?:extern "C" )?(?:fn|const) (?P<name>\w+)', re.M)
DEFINITION = re.compile(r"^(?:abbrev |unfoldable )?(?:pub )?(?:record |data )?(\w+)[^\n]* :", re.M)
FIELD = re.compile(r"^  pub (\w+) :", re.M)


def enclosing(file, old):
    """The function, or in a file of definitions the definition and its field, in which a text stands."""
    text = read(file)
    before = found(text[: text.find(old) + len(old)] if old in text else None, file, f"`{old.strip()}`, which an edit changes")
    head = list((CODE if file.endswith(".rt") else DEFINITION).finditer(before))[-1]
    if file.endswith(".rt"):
        return full_name(text, head)
    field = FIELD.findall(before[head.start():])
    return f"{head.group(1)} .{field[-1]}" if field else head.group(1)


BLOCK = re.compile(r"^(?P<open>pub )?(?:impl(?:<[^>\n]*>)?|trait) (?:(?P<trait>[\w:]+)(?:<(?P<of>[^\n]*)>)? for )?(?P<type>\w+)"
                   r"[^\n]* \{\n.*?^\}", re.M | re.S)


def block(text, place):
    """The `impl` or the trait in which a place of a file stands."""
    return next((match for match in BLOCK.finditer(text) if match.start() <= place < match.end()), None)


def full_name(text, head):
    """A function of an `impl` by the type that has it, `Tally::default`; what a trait is of in brackets, `u8::from(Token)`."""
    around = block(text, head.start())
    if not around:
        return head["name"]
    return f"{around['type']}::{head['name']}" + (f"({around['of']})" if around["of"] else "")


FUNCTION = re.compile(r'^[ \t]*(?P<open>pub )?(?:extern "C" )?fn (?P<name>\w+)', re.M)


def files(crate):
    """The sources of a crate, each with what stands in it."""
    paths = sorted((TOP / "crates" / crate / "src").rglob("*.rt"))
    return [(str(path.relative_to(TOP)), path.read_text(encoding="utf-8")) for path in paths]


def functions(crate):
    """The public functions of a crate, file by file, each with its contracts and, of a trait's, what is said for its law."""
    listed = []
    for file, text in files(crate):
        for head in filter(lambda head: is_public(text, head), FUNCTION.finditer(text)):
            name, around = full_name(text, head), block(text, head.start())
            said = ghosts(around.group()) if around else []
            listed.append(Function(name, file, said + contracts(text[head.end():], f"{file}, {name}")))
    return listed


def is_public(text, head):
    """Whether a function is called from outside: it is `pub`, a public trait has it, or a type that is not private by a trait."""
    around = block(text, head.start())
    by_trait = around and (around["open"] or around["trait"] and around["type"] not in private(text))
    return bool(head["open"] or by_trait)


def private(text):
    """The types of a file that its crate alone knows."""
    return re.findall(r"^(?:pub\(crate\) )?(?:struct|enum) (\w+)", text, re.M)


TYPE = re.compile(r"^pub struct (\w+)[^\n]* \{\n.*?^\}", re.M | re.S)


def invariants(crate):
    """The public types of a crate that have an invariant, each with it."""
    types = [(match.group(1), file, ghosts(match.group())) for file, text in files(crate) for match in TYPE.finditer(text)]
    return [Function(name, file, said) for name, file, said in types if said]


def ghosts(body):
    """What a trait, an `impl` or a struct says as ghost items, each with its name."""
    items = re.findall(r"^    (?:pub )?ghost (\w+)(:| =) \{ (.*?) \}[;,]$", body, re.M | re.S)
    return [f"{name}{sign} {plain(' '.join(text.split()))}" for name, sign, text in items]


def contracts(rest, where):
    """The clauses after `ensures`, up to the function's body; a public function has no `requires`."""
    head = re.split(r"^\s*\{$|[^{\n]* \{$|;$", rest, maxsplit=1, flags=re.M)[0]
    if re.search(r"^\s*requires", head, re.M):
        raise SystemExit(f"{where}: a public function has no `requires`")
    found = re.findall(r"^\s*ensures (?:\w+ )?\{ (.*?) \}(?=\s*(?:ensures|\Z))", head, re.M | re.S)
    if len(found) != len(re.findall(r"^\s*ensures", head, re.M)):
        raise SystemExit(f"{where}: a clause that cannot be read: {head.strip()}")
    return [plain(" ".join(clause.split())) for clause in found]


def plain(contract):
    """`x` for what an array held at the call, `x′` for what it holds after it."""
    contract = re.sub(r"\b(\w+)\.(?:now|old|entry)\b", r"\1", contract)
    return re.sub(r"\b(\w+)\.new\b", r"\1′", contract)


def header():
    """The calls that include/rcl.h declares, in its order: the comment above, which two may share, and the declaration."""
    calls, words = [], ""
    pattern = re.compile(r"/\*(?P<words>.*?)\*/|^(?P<call>[a-z]\w* (?P<name>rcl_\w+)\([^;]*\);)|^typedef .*?;$", re.M | re.S)
    for match in pattern.finditer(read("include/rcl.h")):
        if match.group("call"):
            calls.append(Call(match.group("name"), words, match.group("call")))
        elif match.group("words"):
            words = " ".join(line.strip() for line in match.group("words").strip().split("\n"))
    return calls


def structs():
    """The structs of include/rcl.h by name, each with the comment above it."""
    pattern = re.compile(r"^((?:/\*(?:(?!\*/).)*\*/\n)?typedef struct (rcl_\w+) \{.*?^\} rcl_\w+;)", re.M | re.S)
    return {match.group(2): match.group(1) for match in pattern.finditer(read("include/rcl.h"))}


def example(call):
    """The body of the call's function in bindings/c/calls.c, moved to the left."""
    body = re.search(rf"^static void example_{call}\(void\) \{{\n(.*?)^\}}", read("bindings/c/calls.c"), re.M | re.S)
    found(body, "bindings/c/calls.c", f"example_{call}")
    return "\n".join(line[4:] for line in body.group(1).rstrip("\n").split("\n"))


def refusals():
    """Number, name in the definitions and words of every refusal; the words are those of the wrapper's table."""
    table = re.search(r"EXPLANATIONS.*?= \[\n(.*?)\n\];", read("bindings/rust/src/refusal.rs"), re.S).group(1)
    said = {int(number): words.replace("\\\\", "\\").replace('\\"', '"')
            for number, words in re.findall(r'\((\d+), "((?:[^"\\]|\\.)*)"\)', table)}
    named = {int(number): name for name, number in re.findall(r"^(\w+) = (\d+)$", read("crates/rules/specs/Refusals.antt"), re.M)}
    for number in sorted(set(said) ^ set(named)):
        raise SystemExit(f"refusal {number} is in one of crates/rules/specs/Refusals.antt and bindings/rust/src/refusal.rs")
    return [(number, named[number], said[number]) for number in said]
