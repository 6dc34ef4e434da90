"""The worked scripts, whose output was worked out by hand from the definitions, and texts that are
no scripts."""
import json
import os

from tools.rows import playing

HERE = os.path.dirname(os.path.realpath(__file__))
SCRIPT = "{}"
# Command lines that are not played, and what is told of them.
NOT_PLAYED = {("play", "nowhere"): b"cannot read nowhere\n",
              ("draw", "/dev/null", "1,x"): b"choices refused\n",
              ("draw", "nowhere", "1"): b"cannot read nowhere\n",
              ("stops", "nowhere", "1"): b"cannot read nowhere\n"}


def bytes_of(name):
    with open(os.path.join(HERE, name), "rb") as it:
        return it.read()


def rows():
    """Returns the name of each worked script, the words of craq_lab with SCRIPT instead of the file,
    its text and what it prints."""
    found = []
    for line in bytes_of("worked.txt").decode().splitlines():
        if not line.startswith("#"):
            name, words = line.split(": ")
            found.append((name, words.split(" "), bytes_of(f"worked/{name}.script"),
                          bytes_of(f"worked/{name}.expected")))
    return found


def each_has_a_row(checks):
    """No file of worked/ is left out, and none is lacking."""
    files = sorted(os.listdir(os.path.join(HERE, "worked")))
    wanted = sorted(f"{name}.{ending}" for name, *_ in rows() for ending in ("expected", "script"))
    checks.same("the files of worked/", files, wanted)


def scripts(checks, program):
    """Each worked script prints what is expected, with either core and where none is named."""
    each_has_a_row(checks)
    cases = [(row, core) for row in rows() for core in (None, *playing.CORES)]

    def play(case):
        (name, words, _, _), core = case
        words = [os.path.join(HERE, f"worked/{name}.script") if it == SCRIPT else it for it in words]
        return playing.told(program, playing.with_core(words, core), b"")

    for ((name, _, _, expected), core), told in zip(cases, playing.side_by_side(play, cases)):
        checks.same(f"{name} with {core or 'no core named'}", told, playing.Told(0, expected, b""))


def bad_texts():
    """Each text that is no script, with its first bad line."""
    forms = bytes_of("forms.script")
    found = [(f"# first\n\nstop 1\n{line}\nstop x\n".encode(), 4)
             for line in json.loads(bytes_of("bad_lines.json"))]
    found += [(it["text"].encode(), it["line"]) for it in json.loads(bytes_of("bad_scripts.json"))]
    found.append((forms + b"\nstop x", forms.count(b"\n") + 2))
    return found


def no_scripts(checks, program):
    """A text that is no script is not played: its first bad line is printed. The script of each
    form of line is one."""
    texts = bad_texts()
    for (text, line), pair in zip(texts,
                                  playing.side_by_side(lambda it: playing.on_both(program, ["play"], it[0]),
                                                       texts)):
        for core, told in zip(playing.CORES, pair):
            checks.same(f"{text!r} with {core}", told, playing.Told(2, b"", b"script line %d\n" % line))
    for words, errors in NOT_PLAYED.items():
        checks.same(" ".join(words), playing.told(program, words, b""), playing.Told(2, b"", errors))
    checks.same("--version", playing.told(program, ["--version"], b""),
                playing.Told(0, b"craq_lab 0.1.0\n", b""))
    plain, other = playing.on_both(program, ["play"], bytes_of("forms.script"))
    checks.that(plain.status == 0 and not plain.errors, f"each form of line is played: {plain.errors}")
    checks.same("each form of line", other, plain)
