"""Pictures of the worked scripts, compared with what `play` prints of them, and explanations that
are checked."""
import collections
import json
import os
import re
import tempfile
import xml.etree.ElementTree as xml

from tools.rows import playing, worked

SVG = "{http://www.w3.org/2000/svg}"
TOP = os.path.dirname(os.path.dirname(worked.HERE))
# The pictures of docs/pictures, and the script that each is made of.
PAGES = {
    "put": "crates/craq_lab/stdin",
    "dirty-read": "tools/rows/worked/dirty-read-asks-the-tail.script",
    "head-lost": "tools/rows/worked/head-removed-after-it-forwarded.script",
}


# A line of a script that is always refused, with one line: there is no such message.
NEVER_SENT = "deliver 18446744073709551615"


def steps(program, words, script):
    """Returns each line of a script with what `play` prints of it, and the last explanation. Comments,
    `explain` and empty lines are left out."""
    lines = [it for it in script.decode().splitlines() if it and not it.startswith("#") and it != "explain"]
    text = "".join(f"{line}\n{NEVER_SENT}\n" for line in lines) + "explain\n"
    told = playing.told(program, [it for it in words if it != worked.SCRIPT], text.encode())
    found, here = [], []
    *printed, explanation = told.output.decode().splitlines()
    for line in printed:
        if here and line.startswith("refused"):
            found.append(here)
            here = []
        else:
            here.append(line)
    return list(zip(lines, found, strict=True)), json.loads(explanation)


def wanted_in(program, words, script):
    """Returns how often each kind of shape has to stand in the picture of a script, and the numbers of
    updates committed after its moves."""
    taken, explanation = steps(program, words, script)
    count, sent, arrived = collections.Counter(), 0, set()
    for line, printed in taken:
        if printed[0].startswith("refused"):
            continue
        count["move"] += 1
        if line.startswith("stop"):
            count["halt"] += 1
        if line.startswith("deliver"):
            arrived.add(int(line.split()[-1]))
            count["ignored" if printed[0].startswith("ignored") else "message"] += 1
        sent += sum(1 for it in printed if re.match(r"m\d+ ", it))
        count["answer"] += sum(1 for it in printed if it.startswith("answer"))
        count["dot"] += not line.startswith("stop")
    count["label"], count["lost"] = sent, sent - len(arrived)
    return {kind: number for kind, number in count.items() if number}, explanation


def shown_in(picture):
    """Returns how often each kind of shape stands in a picture, and the numbers at its side."""
    classes = [(it.get("class"), it) for it in xml.fromstring(picture).iter()
               if it.tag in (SVG + "path", SVG + "circle", SVG + "text")]
    kinds = {"move", "halt", "ignored", "message", "answer", "dot", "label", "lost"}
    count = collections.Counter(kind for kind, _ in classes if kind in kinds)
    side = max(int(it.get("x")) for _, it in classes if it.get("x"))
    return dict(count), [int(it.text) for kind, it in classes if kind in ("faint", "grown")
                         and it.get("x") == str(side)]


def reasons(program, words, script):
    """Returns the reasons for which messages were ignored, sorted, as `play` prints them."""
    taken, _ = steps(program, words, script)
    return sorted(it[0].split()[1] for _, it in taken if it[0].startswith("ignored"))


def pictures(checks, program):
    """The picture of each worked script has an arrow for each message, a row for each move, each
    answer, and what is committed."""
    for name, words, script, _ in worked.rows():
        if words[0] != "play":
            continue
        file = os.path.join(worked.HERE, f"worked/{name}.script")
        given = ["picture", *[file if it == worked.SCRIPT else it for it in words[1:]]]
        plain, other = playing.on_both(program, given, b"")
        checks.that(plain.status == 0 and not plain.errors, f"{name} is drawn: {plain.errors}")
        checks.same(f"the picture of {name}, by core", other, plain)
        wanted, explanation = wanted_in(program, words, script)
        count, side = shown_in(plain.output)
        checks.same(f"the shapes of {name}", count, wanted)
        checks.same(f"the side of {name}", side, explanation["lens"])
        told = [it.split()[1] for it in re.findall(rb'class="why"[^>]*>(m\d+ \w+)<', plain.output)]
        checks.same(f"the reasons of {name}", sorted(it.decode() for it in told),
                    reasons(program, words, script))


def in_pages(checks, program):
    """The pictures that the pages show are what `picture` prints, and no others stand beside them."""
    folder = os.path.join(TOP, "docs/pictures")
    checks.same("the files of docs/pictures", sorted(os.listdir(folder)),
                sorted(f"{name}.svg" for name in PAGES))
    for name, script in PAGES.items():
        told = playing.told(program, ["picture", os.path.join(TOP, script)], b"")
        with open(os.path.join(folder, f"{name}.svg"), "rb") as it:
            checks.same(f"docs/pictures/{name}.svg", told, playing.Told(0, it.read(), b""))


def spoiled(explanation):
    """Explanations that do not hold where this one does: without the last update, with one more
    move, with a place that is elsewhere."""
    asks, lens, places = (explanation[it] for it in ("asks", "lens", "places"))
    yield {"asks": asks, "lens": lens + lens[-1:] + [0] * (not lens), "places": places}
    if asks:
        yield {"asks": asks[:-1], "lens": lens, "places": places}
        yield {"asks": asks + asks[-1:], "lens": lens, "places": places}
    if places:
        yield {"asks": asks, "lens": lens, "places": places[:-1]}
        node, ticket, position = places[-1]
        yield {"asks": asks, "lens": lens, "places": places[:-1] + [[node, ticket, position + len(asks) + 1]]}
        yield {"asks": asks, "lens": lens, "places": places[:-1] + [[node + 1, ticket, position]]}


# Texts that are no explanation, and what is told of them.
NO_EXPLANATIONS = [
    ("", "not JSON at line 1 column 0"),
    ('{"asks":[1],\n"lens":[0,', "not JSON at line 2 column 10"),
    ("[]", "no array: asks"),
    ('{"asks":[],"lens":[]}', "no array: places"),
    ('{"asks":[],"lens":{},"places":[]}', "no array: lens"),
    ('{"asks":[1,-1],"lens":[],"places":[]}', "bad item: asks[1]"),
    ('{"asks":[],"lens":[0,1.0],"places":[]}', "bad item: lens[1]"),
    ('{"asks":[],"lens":[18446744073709551616],"places":[]}', "bad item: lens[0]"),
    ('{"asks":[],"lens":[],"places":[[1,2,3],[1,2]]}', "bad item: places[1]"),
    ('{"asks":[],"lens":[],"places":[[1,2,3,4]]}', "bad item: places[0]"),
    ('{"asks":[],"lens":[],"places":[[4294967296,2,3]]}', "bad item: places[0]"),
]


def checked(program, words, file, text):
    """Returns what `check` prints of the text of an explanation."""
    with tempfile.TemporaryDirectory() as folder:
        with open(os.path.join(folder, "claimed"), "wb") as it:
            it.write(text)
        given = ["check", *[file if it == worked.SCRIPT else it for it in words[1:]], it.name]
        told = playing.told(program, given, b"")
        return told._replace(errors=told.errors.replace(it.name.encode(), b"claimed"))


def claims(checks, program):
    """The explanation of each worked script holds of it, and others do not; a text that is none is
    refused."""
    for name, words, script, _ in worked.rows():
        if words[0] != "play":
            continue
        file = os.path.join(worked.HERE, f"worked/{name}.script")
        _, explanation = steps(program, words, script)
        whole = json.dumps(explanation, indent=1).encode()
        checks.same(f"the explanation of {name}", checked(program, words, file, whole),
                    playing.Told(0, b"true\n", b""))
        for other in spoiled(explanation):
            told = checked(program, words, file, json.dumps(other).encode())
            checks.same(f"another explanation of {name}: {other}", told, playing.Told(0, b"false\n", b""))
    words, file = ["play", worked.SCRIPT], os.path.join(worked.HERE, "worked/explain-nothing.script")
    for text, wanted in NO_EXPLANATIONS:
        told = checked(program, words, file, text.encode())
        checks.same(f"{text!r} as an explanation", told,
                    playing.Told(2, b"", f"claimed: {wanted}\n".encode()))
    told = checked(program, words, file, b'{"asks":[\xff')
    checks.same("bytes that are no text", told, playing.Told(2, b"", b"claimed: not UTF-8 at byte 9\n"))
    told = playing.told(program, ["check", file, "nowhere"], b"")
    checks.same("an explanation that is nowhere", told, playing.Told(2, b"", b"cannot read nowhere\n"))
