"""Pages of a manual, made of the pages of docs/ and of what a program's --help prints."""

import re

# Text of a page that roff would take for its own.
ESCAPED = {"\\": "\\e", "-": "\\-"}


def plain(text):
    """A line of text, as roff wants it: `code` in bold, **strong** in bold, no line that begins as a request."""
    text = "".join(ESCAPED.get(it, it) for it in text)
    text = re.sub(r"`([^`]+)`", r"\\fB\1\\fR", text)
    text = re.sub(r"\*\*(.+?)\*\*", r"\\fB\1\\fR", text)
    return re.sub(r"^(['.])", r"\\&\1", text)


def literal(lines):
    """Lines that keep their breaks."""
    return [".nf", *(re.sub(r"^(['.])", r"\\&\1", "".join(ESCAPED.get(c, c) for c in it)) for it in lines), ".fi"]


def rows(lines):
    """The rows of a table: the first cell, and behind it the others, each under its column's name where there are several."""
    cells = [[it.strip() for it in line.strip().strip("|").split(" | ")] for line in lines if not re.fullmatch(r"[-| ]+", line)]
    head, body = cells[0], cells[1:]
    for row in body:
        told = [it for it in row[1:] if it]
        names = [f"{name}: {it}" if len(head) > 2 and name else it for name, it in zip(head[1:], row[1:]) if it]
        yield ".TP"
        yield plain(row[0]) or "\\&"
        yield plain(". ".join(names) if told else "\\&")


def blocks(text):
    """A page in its parts: the kind of each (title, head, code, table, text) and its lines."""
    part, kind = [], None
    for line in text.split("\n") + [""]:
        if line.startswith("# "):
            now = "title"
        elif line.startswith("## "):
            now = "head"
        elif line.startswith("    "):
            now = "code"
        elif " | " in line or re.fullmatch(r"-+(\|-+)+", line):
            now = "table"
        elif line.startswith("- "):
            now = "item"
        else:
            now = "text" if line else None
        is_next = now != kind or now in ("title", "head", "item")
        if now == "text" and kind == "item":
            now, is_next = "item", False
        if is_next and part:
            yield kind, part
            part = []
        kind = now
        if now:
            part.append(line)


def page(name, about, text, help_text):
    """The page of a program."""
    made = [f'.TH {name.upper()} 1 "" "Mudrezzi"', ".SH NAME", f"{name} \\- {plain(about)}"]
    if help_text:
        made += [".SH SYNOPSIS", *literal(help_text.rstrip("\n").split("\n"))]
    made.append(".SH DESCRIPTION")
    for kind, lines in blocks(text):
        if kind == "head":
            made.append(f".SH {plain(lines[0][3:]).upper()}")
        elif kind == "code":
            made += [".PP", *literal(lines)]
        elif kind == "table":
            made += rows(lines)
        elif kind == "item":
            made += [".IP \\(bu 2", *(plain(it.removeprefix("- ").strip()) for it in lines)]
        elif kind == "text":
            made += [".PP", *(plain(it) for it in lines)]
    return "\n".join(made) + "\n"
