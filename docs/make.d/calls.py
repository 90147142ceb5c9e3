"""The made parts of docs/CALLS.md."""
import re

import sources
from markdown import fenced, table, wrapped


def call(name):
    """What the header says of a call, what its contract is, and an example that bindings/check runs."""
    declared = named(sources.header(), name, "include/rcl.h")
    exported = named(sources.functions("rcl"), name, "crates/rcl/src")
    shown = [sources.structs()[struct] for struct in first_shown()[name]]
    parts = [
        *map(wrapped, declared.words.replace(" Refusals", "\nRefusals").split("\n")),
        fenced("\n\n".join(shown + [declared.prototype]), "c"),
        f"Contract, in [`{exported.file}`](../{exported.file}):",
        fenced("\n".join(wrapped(contract, rest="    ") for contract in exported.contracts)),
        "Example:",
        fenced(sources.example(name), "c"),
    ]
    return "\n\n".join(parts)


def named(items, name, where):
    return sources.found(next((item for item in items if item.name == name), None), where, name)


def first_shown():
    """The structs to show with each call: what its answer holds and the answer, where no call before has shown them."""
    seen, found = set(), {}
    structs = sources.structs()
    for declared in sources.header():
        answer = re.match(r"\w+", declared.prototype).group(0)
        held = [struct for struct in structs if answer in structs and re.search(rf"\b{struct}\b", structs[answer])]
        found[declared.name] = [struct for struct in held if struct not in seen]
        seen.update(held)
    return found


def functions(crate):
    """A crate's types with their invariants, its public functions with their contracts, and the must-fail edits that it has."""
    lines = []
    for function in sources.invariants(crate) + sources.functions(crate):
        contracts = function.contracts or ["safe and ending"]
        lines += [function.name] + [wrapped(contract, "    ", "        ") for contract in contracts]
    tried = [f"`{edit.name}` (`{edit.where}`)" for edit in sources.edits() if edit.crate == crate]
    parts = [fenced("\n".join(lines))] if lines else []
    return "\n\n".join(parts + ([wrapped("Must-fail edits: " + ", ".join(tried) + ".")] if tried else []))


def refusals(_):
    return table(["number", "definition", "when"], [(number, f"`{name}`", words) for number, name, words in sources.refusals()])


def kinds(_):
    rows = re.findall(r"^    (RCL_\w+) = (\d+),?(?: +/\* (.*) \*/)?$", sources.read("include/rcl.h"), re.M)
    return table(["code", "name", "what it is"], [(code, f"`{name}`", words or keyword(name)) for name, code, words in rows])


def keyword(name):
    """A kind without a comment is a number or the keyword that its name says."""
    return f"`{name[7:].lower()}`" if name.startswith("RCL_KW_") else "any other number"


def spans(_):
    """How the header says that a span's two words are read."""
    return fenced("\n".join(re.findall(r"^#define RCL_SPAN.*$", sources.read("include/rcl.h"), re.M)), "c")
