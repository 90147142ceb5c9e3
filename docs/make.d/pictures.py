"""The two pictures of the papers, as SVG: what rests on what, and the way of a text through the crates.

Every place is a whole number that is written here, so that the same source gives the same bytes. A crate that a
picture names is looked up in crates.txt, so that no picture names one that is gone.
"""
import re
from html import escape
from pathlib import Path
from typing import NamedTuple

# The first directory upward that has it, so that this file may be moved.
TOP = next(place for place in Path(__file__).resolve().parents if (place / "crates.txt").exists())
WIDTH, TITLE, LINE = 960, 14, 12

# The colour of edges and lines, the strokes of lines and frames, the fill of boxes, how round their corners are. What a line or a box is
# can be told without its colour, for those who see colours otherwise: by a line's strokes, by the square corners of lent memory.
LOOKS = {
    "proved": ("#2f6b4f", "none", "#e8f2ec", 8),
    "compared": ("#3f6496", "8 5", "#e9eff7", 8),
    "trusted": ("#9a6420", "2 4", "#fbf2e2", 8),
    "crate": ("#3f6496", "none", "#e9eff7", 8),
    "memory": ("#9a6420", "none", "#fbf2e2", 0),
    "plain": ("#4d5663", "none", "#f1f2f4", 8),
}


class Box(NamedTuple):
    """Where a box is. Its sides give the points at which arrows begin and end: the middle, if nothing is said."""
    x: int
    y: int
    w: int
    h: int

    def left(self, y=None):
        return self.x, self.y + self.h // 2 if y is None else y

    def right(self, y=None):
        return self.x + self.w, self.left(y)[1]

    def top(self, x=None):
        return self.x + self.w // 2 if x is None else x, self.y

    def bottom(self, x=None):
        return self.top(x)[0], self.y + self.h


def crate(name):
    """The name, if there is such a crate."""
    lines = (TOP / "crates.txt").read_text(encoding="utf-8").split("\n")
    if name not in {line.split(":")[0].split()[0] for line in lines if ":" in line.split("#")[0]}:
        raise ValueError(f"docs/make.d/pictures.py names the crate `{name}`, which crates.txt has not")
    return name


def estimated_width(text, size, bold=False):
    """About what the text takes in the widest of the common fonts: nobody knows which one the reader has."""
    return len(text.replace("`", "")) * size * (70 if bold else 62) // 100


def written(x, y, text, size=LINE, bold=False, anchor="start"):
    """A line of words; what stands between backticks is a file or a function."""
    weight = ' font-weight="bold"' if bold else ""
    words = re.sub("`([^`]*)`", r'<tspan font-family="monospace">\1</tspan>', escape(text))
    return f'<text x="{x}" y="{y}" font-size="{size}"{weight} text-anchor="{anchor}" fill="#1f2328">{words}</text>'


def rectangle(look, x, y, w, h, is_frame=False):
    edge, strokes, fill, corner = LOOKS[look]
    fill, strokes = ("#fafafa", strokes) if is_frame else (fill, "none")
    return (f'<rect x="{x}" y="{y}" width="{w}" height="{h}" rx="{corner}" fill="{fill}" '
            f'stroke="{edge}" stroke-width="1.5" stroke-dasharray="{strokes}"/>')


def arrow_head(before, tip):
    """Where an arrow's line ends, and the three corners of its head, whose tip is on the box's edge."""
    (bx, by), (x, y) = before, tip
    if (bx == x) == (by == y):
        raise ValueError(f"the last stroke of an arrow is level or upright, not from {before} to {tip}")
    dx, dy = (x > bx) - (x < bx), (y > by) - (y < by)
    ex, ey = x - 9 * dx, y - 9 * dy
    return (ex, ey), f"{x},{y} {ex - 4 * dy},{ey + 4 * dx} {ex + 4 * dy},{ey - 4 * dx}"


class Picture:
    def __init__(self, height, title, words):
        self.height, self.title, self.words, self.parts = height, title, words, []

    def box(self, look, x, y, w, h, title, *lines):
        """A box with a bold title and lines below it, centred. One that cannot hold its words is an error."""
        tall = 18 + 16 * len(lines)
        wide = max([estimated_width(title, TITLE, True)] + [estimated_width(line, LINE) for line in lines])
        if wide > w - 8 or tall > h - 6:
            raise ValueError(f"the box of `{title}` is too small: its words take {wide} by {tall}")
        self.parts.append(rectangle(look, x, y, w, h))
        middle, first = x + w // 2, y + (h - tall) // 2 + 14
        self.parts.append(written(middle, first, title, TITLE, True, "middle"))
        self.parts += [written(middle, first + 1 + 16 * number, line, anchor="middle") for number, line in enumerate(lines, 1)]
        return Box(x, y, w, h)

    def crate(self, x, y, w, h, name, *lines):
        return self.box("crate", x, y, w, h, crate(name), *lines)

    def frame(self, look, x, y, w, h, title, *lines):
        """A frame around boxes, to be drawn before them. Its words stand at its upper left."""
        self.parts.append(rectangle(look, x, y, w, h, is_frame=True))
        self.parts.append(written(x + 16, y + 24, title, TITLE, True))
        self.label(x + 16, y + 42, *lines)
        return Box(x, y, w, h)

    def line(self, look, *points):
        path = " ".join(f"{x},{y}" for x, y in points)
        colour, strokes = LOOKS[look][:2]
        self.parts.append(f'<polyline points="{path}" fill="none" stroke="{colour}" stroke-width="2" stroke-dasharray="{strokes}"/>')

    def arrow(self, look, *points, both=False):
        """Through the points, with a head at the last one, or at both ends. Heads are no SVG markers: not everything draws those."""
        points, heads = list(points), []
        for tip, before in [(-1, -2), (0, 1)][:2 if both else 1]:
            points[tip], head = arrow_head(points[before], points[tip])
            heads.append(head)
        self.line(look, *points)
        self.parts += [f'<polygon points="{head}" fill="{LOOKS[look][0]}"/>' for head in heads]

    def label(self, x, y, *lines):
        """Words beside an arrow. They begin at x, and y is the first line's."""
        for number, line in enumerate(lines):
            if x + estimated_width(line, LINE) > WIDTH:
                raise ValueError(f"the label `{line}` leaves the page")
            self.parts.append(written(x, y + 15 * number, line))

    def svg(self):
        head = [
            f'<svg xmlns="http://www.w3.org/2000/svg" viewBox="0 0 {WIDTH} {self.height}" width="{WIDTH}" height="{self.height}" '
            'font-family="Helvetica, Arial, sans-serif" role="img">',
            f'<title>{escape(self.title)}</title>',
            f'<desc>{escape(self.words)}</desc>',
            # A page in dark mode would else show dark words on a dark ground.
            f'<rect width="{WIDTH}" height="{self.height}" fill="#ffffff"/>',
            written(24, 34, self.title, 18, True),
        ]
        return "\n".join(head + self.parts + ["</svg>"]) + "\n"


RESTS = """The papers (documents 00 and 01, RFC 3629 and RFC 8259) are at the top. The definitions in crates/rules/specs are written
from them and quote them; that is trusted, and for people to read. On the definitions rest the theorems in crates/laws, demand 3
(also at the calls) and the walker's law; the laws in crates/rules/proofs; and, with these laws, the contracts of the code, an equation
for each call: that the code gives what the definition gives is proved for every input. All of this is checked by Rattle's checker, which is
trusted. The library and the programs are compiled from the code by Rattle, LLVM and the linker, which are trusted. Beside it stand the
published Rust and, where that has no answer, a judge written from document 01: the definitions and the library are compared with both
by running them. Must-fail edits are wrong programs that the checker must refuse."""


def rests():
    art = Picture(748, "What rests on what", RESTS)
    art.label(24, 56, "An arrow leads from what is stood on", "to what stands on it.")
    # The definitions and the library are compared with both, so that the frame has the arrows.
    beside = art.frame("compared", 692, 300, 244, 196, "Beside it, to compare with")
    art.box("compared", 704, 340, 220, 58, "The published Rust", "ruuda/rcl at 9f705cc6dd")
    art.box("compared", 704, 412, 220, 70, "The judge", "written from document 01,", "where the Rust has no answer")
    art.frame("trusted", 24, 180, 630, 394, "Rattle's checker", "trusted; every solid line is checked by it")
    chain(art, beside)
    for x, look, words in [(24, "proved", "proved, checked by Rattle's checker"),
                           (348, "compared", "compared or tried by running"), (626, "trusted", "trusted")]:
        art.line(look, (x, 720), (x + 44, 720))
        art.label(x + 54, 724, words)
    return art.svg()


def chain(art, beside):
    """From the papers to the library, each arrow with its words below it."""
    papers = art.box("trusted", 350, 48, 260, 86, "Papers", "document 00: the demands", "document 01: the rules", "RFC 3629, RFC 8259")
    definitions = art.box("trusted", 350, 224, 260, 54, "Definitions", f"`crates/{crate('rules')}/specs`")
    theorems = art.box("proved", 40, 284, 260, 90, "Theorems", f"`crates/{crate('laws')}`", "demand 3, also at the calls;", "the walker's law")
    laws = art.box("proved", 40, 392, 260, 90, "Laws", f"`crates/{crate('rules')}/proofs`", "for the code's proofs;", "marked pairs, the RFCs' grammars")
    contracts = art.box("proved", 350, 404, 260, 70, "Contracts", "an equation for each call", "`crates/*/src`")
    edits = art.box("compared", 40, 502, 180, 54, "Must-fail edits", "`crates/*/must-fail`")
    library = art.box("plain", 350, 620, 260, 70, "Library", "`target/staticlib/librcl.a`", "and the programs")

    art.arrow("trusted", papers.bottom(), definitions.top())
    art.label(490, 152, "written from, quoted;", "read by people")
    art.arrow("proved", definitions.left(240), (theorems.top()[0], 240), theorems.top())
    art.arrow("proved", definitions.left(262), (325, 262), (325, 412), laws.right(412))
    art.label(180, 264, "proved")
    art.arrow("proved", definitions.bottom(), contracts.top())
    art.label(490, 336, "code = definition,", "proved for every input")
    art.arrow("proved", laws.right(446), contracts.left(446))
    art.arrow("compared", edits.right(), (400, edits.right()[1]), contracts.bottom(400))
    art.label(232, 546, "wrong programs that", "the checker must refuse")
    art.arrow("trusted", contracts.bottom(), library.top())
    art.label(490, 600, "compiled: Rattle, LLVM, linker")
    art.arrow("compared", beside.top(), (beside.top()[0], definitions.right()[1]), definitions.right())
    art.label(664, 242, "`oracle/definitions`")
    art.arrow("compared", beside.bottom(), (beside.bottom()[0], library.right()[1]), library.right())
    art.label(624, 672, f"`oracle/compare`; {crate('vectors')}, in the gate")


WAY = """A text, which the caller lends, is checked by utf8 and goes to lexer. For each step the lexer asks sublexers, which ask scan
and token; through the crate list it writes the list of lexemes and the stack of openers, both lent. tally counts the calls of lex.
walker takes one step at a time, with a stack that the caller lends. From the list, cst writes the list of a string's parts, also lent.
value reads text, list and parts, asks string for indent and escapes, and writes a string's value to the lent output, through the crate
output; tidy writes the lexemes of the list there, through gap, which puts the gaps between them. hand hands back a part of the text or of the output. The
answers of all of these go through words and rcl to C and Rust; report reads standard input and prints, for the programs listing and
tidy_main. Below all of them are rules, basics and source."""


def way():
    art = Picture(852, "The way of a text through the crates", WAY)
    calls = art.frame("plain", 20, 56, 922, 562, "Calls on lent memory", "none allocates or keeps anything")
    strings_and_tidying(art, lexing(art))
    callers(art, calls)
    ground = f"{crate('rules')} (definitions and laws), {crate('basics')}, {crate('source')} (spans, refusals)"
    art.box("crate", 20, 752, 922, 50, ground, "the crates above stand on these, directly or through others")
    for x, look, words in [(24, "crate", "a crate"), (146, "memory", "lent memory: arrays that the caller owns")]:
        art.parts.append(rectangle(look, x, 819, 34, 22))
        art.label(x + 44, 834, words)
    art.arrow("plain", (516, 830), (560, 830))
    art.label(570, 834, "the way of the data; two heads: there and back")
    return art.svg()


def lexing(art):
    """From the text to the list, which it answers, and to the stack."""
    text = art.box("memory", 36, 160, 150, 56, "text", "only read")
    utf8 = art.crate(221, 160, 150, 56, "utf8", "is it UTF-8?")
    lexer = art.crate(406, 160, 150, 56, "lexer", "loop `run_in`; `lex`")
    sublexers = art.crate(591, 152, 150, 72, "sublexers", "a module for each", "kind of lexeme")
    tally = art.crate(406, 84, 150, 46, "tally", "`lex`, counted")
    scan = art.crate(776, 132, 150, 46, "scan", "where a run ends")
    token = art.crate(776, 198, 150, 46, "token", "kinds, classes")
    writes = art.crate(446, 240, 70, 28, "list")
    stack = art.box("memory", 221, 292, 150, 60, "stack", "of openers")
    lexemes = art.box("memory", 406, 292, 150, 60, "list", "kinds, span words")
    walker = art.crate(36, 280, 150, 84, "walker", f"one step of {crate('lexer')}", "at a time,", "with a stack")

    art.arrow("plain", text.right(), utf8.left())
    art.arrow("plain", utf8.right(), lexer.left())
    art.arrow("plain", lexer.right(), sublexers.left(), both=True)
    art.arrow("plain", sublexers.right(164), scan.left(164), both=True)
    art.arrow("plain", sublexers.right(212), token.left(212), both=True)
    art.arrow("plain", lexer.top(), tally.bottom())
    art.arrow("plain", lexer.bottom(), writes.top())
    art.arrow("plain", writes.bottom(), lexemes.top())
    art.arrow("plain", writes.left(), (stack.top()[0], writes.left()[1]), stack.top())
    art.arrow("plain", text.bottom(), walker.top())
    art.arrow("plain", walker.right(), stack.left(), both=True)
    return lexemes


def strings_and_tidying(art, lexemes):
    """From the list to the output."""
    cst = art.crate(591, 292, 150, 60, "cst", "parts of a string")
    parts = art.box("memory", 776, 292, 150, 60, "parts list", "kinds, span words")
    gap = art.crate(221, 402, 150, 60, "gap", "the gap rule")
    tidy = art.crate(406, 390, 150, 84, "tidy", "lexes, then writes", f"the lexemes by {crate('gap')}")
    value = art.crate(591, 390, 150, 84, "value", "a string's value;", "reads text, list", "and parts")
    string = art.crate(776, 402, 150, 60, "string", "indent, escapes")
    writes = art.crate(534, 494, 80, 28, "output")
    output = art.box("memory", 406, 546, 336, 46, "output", "a tidied text, or values of strings")
    hand = art.crate(776, 534, 150, 70, "hand", "hands back a part", "of text or output")

    art.arrow("plain", lexemes.right(), cst.left())
    art.arrow("plain", cst.right(), parts.left())
    art.arrow("plain", parts.bottom(), string.top())
    art.arrow("plain", string.left(), value.right(), both=True)
    art.arrow("plain", lexemes.bottom(), tidy.top())
    art.arrow("plain", gap.right(), tidy.left(), both=True)
    art.arrow("plain", gap.bottom(), (gap.bottom()[0], writes.left()[1]), writes.left())
    art.arrow("plain", value.bottom(), (value.bottom()[0], writes.right()[1]), writes.right())
    art.arrow("plain", writes.bottom(), output.top())
    art.arrow("plain", output.right(), hand.left())


def callers(art, calls):
    """Who is given the answers: C and Rust through words, the programs through report."""
    words = art.crate(20, 660, 160, 64, "words", "answers as", "structs of words")
    rcl = art.crate(214, 660, 130, 64, "rcl", "exported calls")
    foreign = art.box("plain", 378, 660, 150, 64, "C, Rust", "`include/rcl.h`,", "`bindings/`")
    report = art.crate(594, 660, 170, 64, "report", "reads standard input,", "prints")
    listing = art.crate(812, 656, 130, 32, "listing")
    tidy_main = art.crate(812, 696, 130, 32, "tidy_main")

    art.arrow("plain", calls.bottom(words.top()[0]), words.top())
    art.label(110, 644, "every answer")
    art.arrow("plain", words.right(), rcl.left())
    art.arrow("plain", rcl.right(), foreign.left())
    art.arrow("plain", calls.bottom(report.top()[0]), report.top())
    art.label(689, 644, "answers of `lex` and `tidy`")
    art.arrow("plain", report.right(672), listing.left())
    art.arrow("plain", report.right(712), tidy_main.left())


def pictures() -> dict[str, str]:
    return {"rests.svg": rests(), "way.svg": way()}
