"""Refuses texts that are not plain English: comments, docstrings, help texts and pages.

    tools/style [PATH ..]            checks these files, or all of the repository
    tools/style --counts [PATH ..]   prints the number of each phrase in each crate, exempt files included
    tools/style --trim               drops files without a finding from tools/style_exempt.txt
    tools/style --write              writes tools/style_exempt.txt anew: the files with a finding

The phrases stand in tools/style.txt. Code, names in backticks and code blocks of pages do not
count. Files that tools/style_exempt.txt lists, one path a line, may have findings; a path that ends
with '/' is a folder. The last line is 'style: N files, M findings, E files exempt', and the status
is 1 if M is not 0.
"""
import argparse
import ast
import io
import os
import re
import sys
import tokenize
from collections import Counter
from typing import NamedTuple

from tools import repository

PHRASES = "tools/style.txt"
EXEMPT = "tools/style_exempt.txt"
EXEMPT_HEAD = "# Files that may have findings of tools/style; tools/style --trim drops those without any.\n"
# A comment or a string of Rust or Rattle; of C, a comment of either kind.
RUST = re.compile(r'//[^\n]*|b?"(?:\\.|[^"\\])*"|\'(?:\\.|[^\'\\\n])\'', re.S)
C = re.compile(r'/\*.*?\*/|//[^\n]*|"(?:\\.|[^"\\\n])*"', re.S)
ANTT = re.compile(r"(?:^|(?<=\s))--[^\n]*", re.M)
HASH = re.compile(r"(?:^|(?<=\s))#[^\n]*", re.M)
# Signs before the words of a comment, by the ending of the file.
SIGNS = {"rust": r"//[/!]?[ -]*", "c": r"/\*+|\*/|//", "antt": r"-+[ -]*", "hash": r"#!?:?[ -]*"}
BACKTICKS = re.compile(r"``[^`]+``|`[^`]*`")


class Text(NamedTuple):
    """A comment, a string or a page: the line that it begins at, its words, and whether an opening counts."""

    line: int
    words: str
    opens: bool


class Phrase(NamedTuple):
    """A phrase that is looked for: its part of the file, its expression as written and compiled,
    and what to write."""

    part: str
    written: str
    found_by: re.Pattern
    instead: str


class Finding(NamedTuple):
    """A phrase in a file."""

    path: str
    line: int
    words: str
    phrase: Phrase


def phrases():
    """Returns the phrases of the list."""
    found, part = [], None
    for line in repository.text_of(PHRASES).splitlines():
        if head := re.fullmatch(r"\[(\w+)\]", line):
            part = head[1]
        elif line and not line.startswith("#"):
            written, _, instead = line.partition("  ")
            spaced = written.replace(" ", r"\s+")
            begin = r"\A[\W_]*" if part == "openings" else ""
            found.append(Phrase(part, written, re.compile(begin + spaced, re.I), instead.strip()))
    return found


def blanked(text, pattern):
    """Returns the text with each match made of '`', line breaks aside, so that lines keep their numbers."""
    return pattern.sub(lambda it: re.sub(r"[^\n]", "`", it[0]), text)


def line_at(text, at):
    return text.count("\n", 0, at) + 1


def joined(comments, sign):
    """Returns comments as texts: those of consecutive lines with one sign and one indent are one."""
    found = []
    for line, column, words in comments:
        mark = re.match(r"[-/!#*]+", words)[0]
        body = re.sub(rf"\A(?:{sign})", "", words)
        last = found[-1] if found else None
        if last and (last[0] + len(last[1]), last[2], last[3]) == (line, column, mark):
            last[1].append(body)
        else:
            found.append((line, [body], column, mark))
    return [Text(line, "\n".join(bodies), True) for line, bodies, _, _ in found]


def strings(found):
    """Returns the strings that are prose, so have a blank between letters."""
    return [Text(line, words, False) for line, words in found if re.search(r"[A-Za-z] [A-Za-z]", words)]


def by_pattern(text, pattern, sign):
    """Returns the comments and the strings of a text, which the pattern finds."""
    comments, others = [], []
    for it in pattern.finditer(text):
        line, column = line_at(text, it.start()), it.start() - text.rfind("\n", 0, it.start())
        if it[0].startswith(("//", "--", "#")):
            comments.append((line, column, it[0]))
        elif it[0].startswith("/*"):
            comments.append((line, column, it[0].strip("/*")))
        else:
            others.append((line, it[0]))
    return joined([it for it in comments if re.match(r"[-/!#*]", it[2])], sign) + strings(others) \
        + [Text(line, words, True) for line, _, words in comments if not re.match(r"[-/!#*]", words)]


def of_rust(text):
    return by_pattern(text, RUST, SIGNS["rust"])


def of_c(text):
    return by_pattern(text, C, SIGNS["c"])


def of_antt(text):
    return by_pattern(text, ANTT, SIGNS["antt"])


def of_hash(text):
    return by_pattern(text, HASH, SIGNS["hash"])


def docstrings_of(text):
    """Returns the lines at which docstrings begin."""
    found = set()
    for it in ast.walk(ast.parse(text)):
        if isinstance(it, (ast.Module, ast.ClassDef, ast.FunctionDef,
                           ast.AsyncFunctionDef)) and ast.get_docstring(it):
            found.add(it.body[0].lineno)
    return found


def of_python(text):
    """Returns the comments, docstrings and strings of a Python file."""
    comments, others, opening = [], [], docstrings_of(text)
    for it in tokenize.generate_tokens(io.StringIO(text).readline):
        if it.type == tokenize.COMMENT:
            comments.append((it.start[0], it.start[1], it.string))
        elif it.type == tokenize.STRING:
            others.append((it.start[0], it.string.lstrip("rbfRBF").strip("\"'")))
    texts = strings(others)
    return joined(comments, SIGNS["hash"]) + [it._replace(opens=it.line in opening) for it in texts]


def of_page(text):
    """Returns the paragraphs of a page, without code blocks and the targets of links."""
    text = blanked(text, re.compile(r"^( *)```.*?^\1```[^\n]*$", re.M | re.S))
    text = blanked(text, re.compile(r"(?<=\n\n)(?:    [^\n]*\n|\n)+", re.M))
    text = blanked(text, re.compile(r"(?<=\])\([^)\s]*\)"))
    found, line = [], 1
    for part in re.split(r"(\n\s*\n)", text):
        if part.strip():
            found.append(Text(line, part, False))
        line += part.count("\n")
    return found


# Sources of programs that the trials build.
RUST_TEXT = re.compile(r"tools/hostile/(?:served|stores)/\w+\.txt")


def kind_of(path, text):
    """Returns the reader of a file's texts, or None for a file without any."""
    by_ending = {".rt": of_rust, ".rs": of_rust, ".antt": of_antt, ".md": of_page, ".py": of_python,
                 ".c": of_c, ".h": of_c, ".toml": of_hash}
    first = text.partition("\n")[0]
    if path.endswith("_main.txt") or RUST_TEXT.fullmatch(path):
        return of_rust
    if path in ("crates.txt", "HANDLES") or first.startswith("#!") and "bash" in first:
        return of_hash
    if first.startswith("#!") and "python" in first:
        return of_python
    return by_ending.get(os.path.splitext(path)[1])


def findings_in(path, text, known):
    """Returns the findings in one file."""
    found = []
    reader = kind_of(path, text)
    for it in reader(text) if reader else []:
        words = blanked(it.words, BACKTICKS)
        for phrase in known:
            if phrase.part == "openings" and (not it.opens or is_question(words)):
                continue
            for match in phrase.found_by.finditer(words):
                at = match.end() - 1 if phrase.part == "openings" else match.start()
                seen = " ".join(match[0].split()).lstrip("-`*_ ")
                found.append(Finding(path, it.line + words.count("\n", 0, at), seen, phrase))
    return found


def is_question(words):
    """Reports whether the first sentence is a question."""
    return re.split(r"(?<=[.?!;:])(?:\s|\Z)", words.strip(), maxsplit=1)[0].endswith("?")


def texts(paths):
    """Yields each file that is text with its text."""
    for path in paths:
        try:
            yield path, repository.text_of(path)
        except (UnicodeDecodeError, FileNotFoundError, IsADirectoryError):
            pass


def exempt():
    """Returns the paths and folders that may have findings."""
    lines = repository.text_of(EXEMPT).splitlines()
    return [it.strip() for it in lines if it.strip() and not it.startswith("#")]


def is_exempt(path, places):
    return any(path == it or it.endswith("/") and path.startswith(it) for it in places)


def write_exempt(paths):
    with open(repository.path(EXEMPT), "w", encoding="utf-8") as it:
        it.write(EXEMPT_HEAD + "".join(f"{path}\n" for path in sorted(paths)))


def place_of(path):
    """Returns the crate of a file, or its folder at the top."""
    parts = path.split("/")
    return parts[1] if parts[0] == "crates" and len(parts) > 2 else parts[0] if len(parts) > 1 else "(top)"


def counted(found):
    """Returns a table of findings: a row for each crate and folder, a column for each phrase that occurs."""
    sums = Counter((place_of(it.path), it.phrase.written) for it in found)
    columns = [it for it, _ in Counter(it.phrase.written for it in found).most_common()]
    places = [it for it, _ in Counter(place_of(it.path) for it in found).most_common()]
    lines = [f"{'':24}{'all':>6}" + "".join(f"  {number:>4}" for number in range(1, len(columns) + 1))]
    for place in [*places, "all"]:
        row = [sum(sums[it, phrase] for it in (places if place == "all" else [place])) for phrase in columns]
        lines.append(f"{place:24}{sum(row):6}" + "".join(f"  {it or '':>4}" for it in row))
    return lines + [f"{number:>4}: {it}" for number, it in enumerate(columns, 1)]


def asked_for():
    parser = argparse.ArgumentParser(description=__doc__,
                                     formatter_class=argparse.RawDescriptionHelpFormatter)
    does = parser.add_mutually_exclusive_group()
    for option in "counts", "trim", "write":
        does.add_argument(f"--{option}", action="store_true")
    parser.add_argument("paths", nargs="*", metavar="PATH")
    return parser.parse_args()


def main():
    asked = asked_for()
    given = [os.path.relpath(os.path.realpath(it), repository.TOP) for it in asked.paths]
    paths = [it for it in repository.files() if not given
             or is_exempt(it, [*given, *(f"{it}/" for it in given)])]
    known = phrases()
    every = [it for path, text in texts(paths) for it in findings_in(path, text, known)]
    refused, places = [it for it in every if it.phrase.part != "counted"], exempt()
    if asked.counts:
        print("\n".join(counted(every)))
    if asked.write:
        write_exempt({it.path for it in refused})
    if asked.trim:
        write_exempt({it.path for it in refused if is_exempt(it.path, places)})
    if asked.counts or asked.write or asked.trim:
        return 0
    bad = [it for it in refused if not is_exempt(it.path, places)]
    for it in bad:
        print(f"{it.path}:{it.line}: '{it.words}': write {it.phrase.instead}")
    print(f"style: {len(paths)} files, {len(bad)} findings, {sum(is_exempt(it, places) for it in paths)} "
          f"files exempt")
    return 1 if bad else 0


if __name__ == "__main__":
    sys.exit(main())
