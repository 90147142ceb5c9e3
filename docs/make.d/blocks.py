"""The made parts of the papers: by name, a function from the part's argument to Markdown.

In a paper such a part stands between a line `<!-- made: NAME ARGUMENT -->` and a line `<!-- end -->`.
"""
import calls
import evidence
import sources
from markdown import fenced, table


def file(path):
    languages = {".c": "c", ".rs": "rust"}
    return fenced(sources.read(path).rstrip("\n"), languages.get(path[path.rindex("."):], ""))


def crates(_):
    rows = [(f"`{crate.name}`", crate.words, " ".join(crate.stands_on) or "nothing")
            for crate in sources.crates() if not sources.is_program(crate.name)]
    return table(["crate", "what it is", "stands on"], rows)


BLOCKS = {part.__name__: part for part in [
    file, crates,
    calls.call, calls.functions, calls.refusals, calls.kinds, calls.spans,
    evidence.counts, evidence.archive, evidence.compared, evidence.compared_all, evidence.vectors, evidence.programs,
    evidence.edits, evidence.gate, evidence.lines,
]}
