"""Pieces of Markdown."""
import textwrap

WIDEST = 120


def fenced(text, language=""):
    return f"```{language}\n{text}\n```"


def table(head, rows):
    lines = ["| " + " | ".join(head) + " |", "|" + "---|" * len(head)]
    return "\n".join(lines + ["| " + " | ".join(cell(value) for value in row) + " |" for row in rows])


def cell(value):
    return str(value).replace("|", "\\|")


def wrapped(text, first="", rest=""):
    return textwrap.fill(text, WIDEST, initial_indent=first, subsequent_indent=rest, break_long_words=False,
                         break_on_hyphens=False)


def number(n):
    return f"{n:,}"
