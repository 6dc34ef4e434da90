"""Makes the parts of generated pages: tables, paragraphs, and templates that are filled."""
import re

from tools import repository


def stored(name):
    """Returns the rows of a table of tools/pages/, without its head."""
    lines = repository.text_of("tools/pages", name).splitlines()[1:]
    return [line.split("\t") for line in lines]


def table(head, rows):
    """Returns a table of a page."""
    lines = [f"| {' | '.join(head)} |", "|---" * len(head) + "|"]
    return "\n".join(lines + [f"| {' | '.join(row)} |" for row in rows])


def filled(name, parts):
    """Returns a template of tools/pages/ with each of its lines '@NAME@' replaced."""
    text = repository.text_of("tools/pages", name)
    for mark, part in parts.items():
        text = text.replace(f"@{mark}@\n", part + "\n")
    return text


def wrapped(text, columns=100):
    """Returns a paragraph as lines of at most this number of columns."""
    lines = [""]
    for word in text.split():
        if len(lines[-1]) + len(word) + 1 > columns:
            lines.append("")
        lines[-1] = f"{lines[-1]} {word}".strip()
    return "\n".join(lines)


def layers():
    """Returns the layers of crates.txt as number, title and crates; that of tests is left out."""
    found = []
    for line in repository.text_of("crates.txt").splitlines():
        if head := re.match(r"# (\d+)\. (.*)", line):
            found.append((head[1], head[2], []))
        elif crate := re.match(r"(\w+)\b.*:", line):
            found[-1][2].append(crate[1])
    return [it for it in found if it[1] != "Tests"]
