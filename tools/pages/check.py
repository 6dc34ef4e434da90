"""Checks the pages against the sources and against one another. Needs no proof and no program.

    tools/pages/check       prints each difference; the last line is 'pages: N checks, M faults',
                            the status 1 if M is not 0

- paths: each file that a page, a script or crates.txt names in backticks exists
- links: each link of a page names a file, and a heading of it (tools/pages/links.py)
- layers: docs/develop/ARCHITECTURE.md has the layers of crates.txt under their titles, in its
  picture too, and the crates of each in order
- the kit: README.md and docs/proof/TRUSTED.md name the kit's crates of crates.txt as trusted
- refusals: docs/use/BYTES.md, docs/use/SCRIPTS.md, the helps and the client have the numbers of
  craq_names/src/refusal.rt; BYTES and the client have the names too
- commands: docs/use/SCRIPTS.md, docs/use/CRAQ.md, the helps of craq_lab and craq, and that of
  craq's prompt have the commands of craq_script/src/reading.rt
- options: docs/use/SERVER.md has craqd's options of craq_cli/src/server.rt and options.rt
- lists: docs/develop/CHANGING.md lists each file that names the newest command, message or refusal
- the walk: each function that docs/develop/ARCHITECTURE.md names from socket to socket is in the
  crate beside it; that page and docs/develop/OPEN.md have the numbers of their files and crates
  (tools/pages/walk.py)
- diagrams: those of docs/diagrams are drawn from their data, and name what is in the sources
- pictures of runs: those of docs/pictures have no small text, and no label over an arrow or another
- threads: each function and type that docs/develop/THREADS.md names is in the crate beside it, or
  in some crate
- figures: each figure of README.md that is not generated is in benchmarks/server/RESULTS.md
- limits: the table of docs/use/GUARANTEES.md has the numbers of the constants and definitions;
  docs/develop/MESSAGES.md has those of messages between nodes, and its worked bytes are those of
  craq_part_tests/src/links.rt
- first lines: each module begins with '//! '
- blocks: a command with '$' before it stands in a block that tools/pages/try runs
- the surface: each public call and type of tools/pages/surface.txt is in the sources, with its signature
- the embedded store: docs/use/EMBEDDING.md shows parts of the program of crates/craq_embedding, in
  their order; its line of crates.txt; its output; the number of its lines
- the promise: README.md and docs/proof/PROMISE.md have it word for word, as it is specified
- definitions: what PROMISE and RECOVERY of docs/proof quote is in the sources; PROMISE and
  each other page that tells it has the lines of definitions that the theorem reaches, and no other
- scripts: TESTED, TRUSTED and RECOVERY of docs/proof have those of tools/rows
- READMEs of crates: each names the files of its proofs
- sizes: the words of each page and of all pages together, the length of lines and the words of a
  table's cell, by the limits of tools/pages/sizes.py
- measures: each measured number of a page is in a file of results of benchmarks/, which names its
  day, its commit and its machine (tools/pages/measures.py)
- constants: the numbers that pages give for constants of the code, by tools/pages/constants.tsv
- generated pages: DEFINITIONS, MUTANTS, PROVED and TESTED of docs/proof, the budget of
  docs/develop/CHANGING.md and the figures of README.md are what tools/pages/generate writes; each
  edit and each crate has a claim of at most 25 words, each claim its functions
"""
import os
import re
import sys

from tools import repository
from tools.checks import Checks
from tools.pages.constants import compare_constants
from tools.pages.defined import figures_of_claims
from tools.pages.diagrams import diagrams
from tools.pages.generated import generated
from tools.pages.links import links
from tools.pages.measures import measures
from tools.pages.runs import pictures_of_runs
from tools.pages.sizes import sizes
from tools.pages.surface import surface
from tools.pages.walk import walk

TOP = repository.TOP
# The variants by which a file belongs to the list of that part of CHANGING.
NEWEST = {"A new command": ["Decrement"], "A new message between nodes": ["Batch"], "A new refusal": None,
          "A new message of a client, or a new reply": ["Status", "Client(?:Message|Reply)"]}
# Files that use one of these words in another meaning.
OTHERWISE = re.compile(r"crates/craq_frames/(proofs/Conversations|specs/Serving)\.antt$|"
                       r"crates/craq_front/src/serving\.rt$|"
                       r"docs/develop/|docs/proof/(PROVED|TESTED|WRONG|PROMISE)|README\.md$|"
                       r"benchmarks/|tools/|.*/(must-fail|wrong)/")
COUNTED = re.compile(r"\b[\d,]+ lines of definitions")
# The promise, as the specification of this store has it. Its words are never changed.
PROMISE = ("Whatever is asked, delivered, lost, repeated, stopped, removed or joined, in any "
           "order, each chain has one growing list of updates, with no request number twice, "
           "such that every strong reply is what a single copy answers after a beginning of that "
           "list that was the whole list at some moment from its ask to its reply, and every "
           "eventual reply is a version written by updates that were asked.")
PATH = re.compile(r"`((?:docs|tools|examples|clients|benchmarks|crates)/[\w./-]+|"
                  r"craq\w*/(?:src|specs|proofs|must-fail|wrong|data)\b[\w./-]*)`")


def text_of(name):
    with open(os.path.join(TOP, name), encoding="utf-8", errors="replace") as it:
        return it.read()


def section(text, title, level="## "):
    """Returns the text under a heading, up to the next one of its level or above."""
    _, found, rest = text.partition(f"\n{level}{title}")
    return re.split(r"\n#{2,%d} " % (len(level) - 1), rest)[0] if found else ""


def cells(line):
    return [it.strip() for it in line.strip().strip("|").split("|")]


def rows(text):
    """Returns the rows of the tables in a text, each as its cells."""
    return [cells(it) for it in text.splitlines() if it.startswith("|") and not it.startswith("|---")]


# Paths.

def is_there(path):
    """Reports whether a file or folder exists. A definition may lack its ending, as craq_runs/specs/Valid."""
    full = os.path.join(TOP, "crates", path) if path.startswith("craq") else os.path.join(TOP, path)
    made = re.search(r"(^|/)out(/|$)", path)
    return made or os.path.exists(full) or os.path.exists(full + ".antt")


def paths(checks, names):
    for name in names:
        text = text_of(name)
        found = set(re.findall(r"\bdocs/[\w/]*[A-Z_]+\.md", text))
        if name.endswith(".md") or name in ("crates.txt", "test", "build", "play", "serve", "plant"):
            found |= set(PATH.findall(text))
        for path in sorted(it for it in found if "NAME" not in it):
            checks.that(is_there(path), f"{name} names {path}, which is not there")


# Layers.

def layers_of_crates():
    """Returns the crates of crates.txt by layer, in order."""
    found, layer = {}, None
    for line in text_of("crates.txt").splitlines():
        if head := re.match(r"# ([0-9]+)\. ", line):
            layer = head[1]
        elif made := re.match(r"(\w+)\b.*:", line):
            found.setdefault(layer, []).append(made[1])
    return found


def titles_of_layers():
    """Returns the title of each layer of crates.txt, up to a colon."""
    return dict(re.findall(r"^# ([0-9]+)\. ([^:\n]+)", text_of("crates.txt"), re.M))


def layers(checks):
    wanted, page = layers_of_crates(), "docs/develop/ARCHITECTURE.md"
    for layer, crates in wanted.items():
        part = section(text_of(page), f"{layer}. ")
        first = " ".join(row[0] for row in rows(part))
        named = list(dict.fromkeys(re.findall(r"`(craqd?(?:_\w+)?)`", first)))
        if layer != "9":
            checks.same_items(f"{page}, layer {layer},", named, crates)
        else:
            below = {it for other, some in wanted.items() if other != layer for it in some}
            checks.same_items(f"{page}, layer {layer},",
                              sorted(set(re.findall(r"`(craqd?(?:_\w+)?)`", part)) - below),
                              sorted(crates))
    picture = section(text_of(page), "The layers in one picture").partition("\nA crate stands")[0]
    for layer, title in titles_of_layers().items():
        checks.that(f"\n## {layer}. {title}\n" in text_of(page), f"{page} has no part '{layer}. {title}'")
        drawn = title[0].lower() + title[1:].partition(",")[0]
        checks.that(f"{layer}  {drawn}" in picture, f"the picture of the layers lacks '{layer}  {drawn}'")


def kit(checks):
    """Compares the kit's crates below the programs with those that README and TRUSTED name."""
    layers_of = layers_of_crates()
    own = {it for some in layers_of.values() for it in some}
    lines = {made[1]: made[2].split()
             for made in re.finditer(r"^(\w+)[^:\n#]*:(.*)$", text_of("crates.txt"), re.M)}
    wanted = sorted({it for crate, below in lines.items() if crate not in layers_of["9"]
                     for it in below} - own)
    part = section(text_of("README.md"), "What is trusted").split("contracts for the crates")[-1]
    told = re.split(r"Proved\swith", part)[0]
    checks.same_items("README.md, the crates of the kit,", sorted(re.findall(r"`(\w+)`", told)), wanted)
    checks.same("README.md, the number of crates of the kit",
                re.findall(r"contracts for (\d+) crates", text_of("README.md")), [str(len(wanted))])
    table = rows(section(text_of("docs/proof/TRUSTED.md"), "The kit's library"))
    told = {name for row in table for name in re.findall(r"`(\w+)`", row[0])} - {"std"}
    checks.same_items("docs/proof/TRUSTED.md, the crates of the kit,", sorted(told), wanted)


# Refusals.

def refusals_of_source():
    """Returns the number of each refusal, by name, from the code."""
    part = text_of("crates/craq_names/src/refusal.rt")
    return {name: int(number) for name,
            number in re.findall(r"Refusal::(\w+)(?:\([^)]*\)|\s*\{[^}]*\})? => ([0-9]+),", part)}


def numbers(text):
    return {int(it) for it in re.findall(r"\b[0-9]+\b", text)}


def refusals(checks):
    wanted = refusals_of_source()
    checks.that(len(wanted) > 20, "the refusals were not found in craq_names/src/refusal.rt")
    by_number = {number: name for name, number in wanted.items()}
    page = section(text_of("docs/use/BYTES.md"), "Refusals", "### ")
    table = {int(row[0]): row[1] for row in rows(page) if row[0].isdigit()}
    others = numbers(page.split("The other numbers")[-1].replace("so 15", ""))
    checks.same_items("docs/use/BYTES.md, its refusals,",
                      sorted([*table.items(), *((it, by_number.get(it)) for it in others)]),
                      sorted(by_number.items()))
    client = dict(re.findall(r"\b([0-9]+): \"(\w+)\"", text_of("clients/python/jilsdau/wire.py")))
    checks.same_items("clients/python/jilsdau/wire.py, its refusals,",
                      sorted((int(number), name) for number, name in client.items()), sorted(table.items()))
    script = rows(section(text_of("docs/use/SCRIPTS.md"), "What is printed"))
    played = {it for row in script if re.match(r"[0-9]", row[0]) for it in numbers(row[0])}
    checks.that(played <= set(by_number), "docs/use/SCRIPTS.md has a refusal that is not there")
    lab = re.search(r"^Refusals: (.*?)\n\n", text_of("crates/craq_lab/src/command_line.rt"), re.M | re.S)
    missing = played - numbers(lab[1] if lab else "")
    checks.that(not missing, f"the help of craq_lab lacks the refusals {sorted(missing)}")
    craq = re.search(r"^  refused N(.*?)\n\n", text_of("crates/craq_cli/src/client.rt"), re.M | re.S)
    # Refusals that a client finds itself, and those that a running server gives to a request.
    missing = {it for it in played | set(table) if it <= 14
               or by_number[it] == "WrongNode"} - numbers(craq[1] if craq else "")
    checks.that(not missing, f"the help of craq lacks the refusals {sorted(missing)}")


# Commands.

def words_of_scripts():
    """Returns the first words of a script's lines, from the code that reads them."""
    return set(re.findall(r"kind == b\"([a-z]+)\"", text_of("crates/craq_script/src/reading.rt")))


def commands(checks):
    scripts = text_of("docs/use/SCRIPTS.md")
    table = {word for row in rows(section(scripts, "How it is written"))
             for word in re.findall(r"`([a-z]+)\b", row[0])}
    read = words_of_scripts()
    checks.that(len(read) > 5, "the words of scripts were not found in craq_script/src/reading.rt")
    checks.that(read <= table, f"docs/use/SCRIPTS.md lacks the lines {sorted(read - table)}")
    asked = {word for row in rows(section(scripts, "How it is written")) if "CLIENT" in row[0]
             or "same words" in row[0] or "`dec" in row[0]
             for word in re.findall(r"`([a-z]+)\b", row[0])} | {"read", "status"}
    server = {word for row in rows(section(text_of("docs/use/CRAQ.md"), "The command"))
              for word in re.findall(r"`([a-z]+)\b", row[0])}
    checks.that(asked <= server, f"docs/use/CRAQ.md lacks the commands {sorted(asked - server)}")
    prompt = re.search(r'const HELP: &str = "(.*?)";', text_of("crates/craq/src/shell.rt"), re.S)
    for file, text in (("crates/craq_cli/src/client.rt", text_of("crates/craq_cli/src/client.rt")),
                       ("the help of crates/craq/src/shell.rt", prompt[1] if prompt else "")):
        missing = [it for it in sorted(asked) if not re.search(rf"\b{it}\b", text)]
        checks.that(not missing, f"{file} lacks the commands {missing}")
    missing = [it for it in sorted(table)
               if not re.search(rf"\b{it}\b", text_of("crates/craq_lab/src/command_line.rt"))]
    checks.that(not missing, f"the help of craq_lab lacks the lines {missing}")


# Options.

def options(checks):
    """Compares the options of craqd in docs/use/SERVER.md with those that its command line takes."""
    numbers_of = re.search(r"fn name<.*?\{(.*?)\n    \}\n\n", text_of("crates/craq_cli/src/options.rt"),
                           re.S)
    names = re.findall(r'=> "([a-z-]+)"', numbers_of[1] if numbers_of else "")
    names += re.findall(r'(?:flag|text)_arg\(alloc, "([a-z-]+)"', text_of("crates/craq_cli/src/server.rt"))
    part = section(text_of("docs/use/SERVER.md"), "The server")
    told = [found[1] for row in rows(part) if (found := re.match(r"`--([a-z-]+)", row[0]))]
    checks.same_items("docs/use/SERVER.md, the options of craqd,", sorted(told), sorted(names))
    usage = re.findall(r"--([a-z-]+)", part.partition("\n    craqd ")[2].partition("\n\n")[0])
    checks.same_items("docs/use/SERVER.md, the words of craqd,", sorted(usage), sorted(names))


# Lists.

def listed(part):
    """Returns the files, folders and crates that the tables of a part of CHANGING name, as paths
    from the top."""
    found = []
    for row in rows(part):
        for cell in row:
            crate = folder = ""
            for token in re.findall(r"`([\w./-]+)`", cell):
                if not ("/" in token or token.endswith((".antt", ".rt"))
                        or re.match(r"craq\w|stdout$", token)):
                    continue
                if token.startswith("craq"):
                    crate, path = token.split("/")[0], "crates/" + token
                elif token.split("/")[0] in ("src", "specs", "proofs", "data", "stdout"):
                    path = f"crates/{crate}/{token}"
                elif "/" not in token and token.endswith((".antt", ".rt")):
                    path = f"{folder}/{token}"
                else:
                    path = token
                folder = os.path.dirname(path)
                found.append(path)
    return found


def is_listed(name, places):
    return any(name == it or name.startswith(it.rstrip("/") + "/") for it in places)


def naming(names, words):
    """Returns the files that name all these words; without words, those that name every refusal."""
    words = words or list(refusals_of_source())
    wanted = [re.compile(rf"\b{it}\b") for it in words]
    return [name for name in names if name.endswith((".rt", ".antt", ".md", ".py", "stdout"))
            and not OTHERWISE.match(name)
            and all(it.search(text_of(name)) for it in wanted)]


def lists(checks, names):
    text = text_of("docs/develop/CHANGING.md")
    for title, words in NEWEST.items():
        places = listed(section(text, title, "### "))
        for path in places:
            checks.that(is_there(path), f"docs/develop/CHANGING.md, {title}: {path} is not there")
        for name in naming(names, words):
            checks.that(is_listed(name, places),
                        f"docs/develop/CHANGING.md, {title}: {name} is not in the list")


# Limits.

# The first words of a row of GUARANTEES, the place of the number in that row, its name, and the
# files that define it.
LIMITS = [
    ("chains of a server", 0, "MOST_CHAINS", ["craq_epochs/src/membership.rt"]),
    ("chains of a server", 2, "MOST_NAME", ["craq_place/src/reading.rt"]),
    ("nodes of a chain", 0, "member_limit", ["craq_names/specs/Limits.antt"]),
    ("nodes of a chain", 0, "MEMBER_LIMIT", ["craq_epochs/src/membership.rt"]),
    ("key", 1, "MAX", ["craq_names/src/key.rt"]),
    ("value", 1, "value_limit", ["craq_names/specs/Limits.antt"]),
    ("compares, reads, writes", 0, "item_limit", ["craq_names/specs/Limits.antt"]),
    ("compares, reads, writes", 0, "MOST_ITEMS", ["craq_commands/src/transaction.rt"]),
    ("replies kept", 0, "window_limit", ["craq_names/specs/Limits.antt"]),
    ("replies kept", 0, "WINDOW_LIMIT", ["craq_commands/src/window.rt"]),
    ("requests that wait", 0, "waiting_limit", ["craq_names/specs/Limits.antt"]),
    ("requests that wait", 0, "MOST_WAITING", ["craq_history/src/node.rt"]),
    ("requests in one `Many`", 0, "MOST_MESSAGES", ["craq_frames/src/versions.rt"]),
    ("frame of a request", 0, "payload_limit", ["craq_frames/specs/Frame.antt"]),
    ("frame of a request", 0, "MAX_PAYLOAD", ["craq_frames/src/frame.rt"]),
    ("frame of a request", 0, "FRAME_LIMIT", ["clients/python/jilsdau/wire.py"]),
]
# Messages between nodes: the sentence of MESSAGES with the number, and the names and files that
# define it.
BETWEEN = [
    ("entries of a Batch", r"\| Batch: .*\| count u8 \(2 to ([0-9]+)\)",
     {"batch_limit": "craq_names/specs/Limits.antt",
      "BATCH_LIMIT": "craq_model/src/message.rt"}),
    ("items of a part", r"One of up to ([0-9]+) items is\s+sent\s+as\s+a\s+Copy",
     {"part_limit": "craq_names/specs/Limits.antt",
      "PART_LIMIT": "craq_model/src/message.rt"}),
]


def number_in(place, name):
    """Returns the number of a constant or a definition in a file, or None."""
    text = text_of(place if place.startswith("clients") else f"crates/{place}")
    found = re.search(rf"^\s*(?:pub(?:\(crate\))? )?(?:const )?{name}\b(?:: \w+)? = ([0-9_]+);?$", text, re.M)
    return int(found[1]) if found else None


def limits(checks):
    table = rows(section(text_of("docs/use/GUARANTEES.md"), "Limits"))
    for what, at, name, places in LIMITS:
        row = next((row for row in table if row[0].startswith(what)), None)
        found = [int(it.replace(",", "")) for it in re.findall(r"\b[0-9][0-9,]*\b", row[1])] if row else []
        wanted = found[at] if at < len(found) else None
        for place in places:
            number = number_in(place, name)
            checks.that(number is not None and number == wanted,
                        f"docs/use/GUARANTEES.md, {what}: {wanted}; {place}, {name}: {number}")
    page = text_of("docs/develop/MESSAGES.md")
    for what, told, places in BETWEEN:
        found = re.search(told, page)
        for name, place in places.items():
            number = number_in(place, name)
            checks.that(found and number == int(found[1]),
                        f"docs/develop/MESSAGES.md, {what}: {found and found[1]}; {place}, {name}: {number}")


def worked_bytes(checks):
    """Finds each message whose bytes MESSAGES has among the arrays of the test of messages."""
    source = "craq_part_tests/src/links.rt"
    part = section(text_of("docs/develop/MESSAGES.md"), "Worked bytes")
    arrays = {bytes(int(it) for it in re.findall(r"\d+", found)) for found
              in re.findall(r": \[u8; \d+\] = \[([\d,\s]+)\];", text_of(f"crates/{source}"))}
    told = [row for row in rows(part) if row[1].startswith("`")]
    checks.that(len(told) > 2, "docs/develop/MESSAGES.md: its worked bytes were not found")
    for message, written in told:
        checks.that(bytes.fromhex(written.strip("`")) in arrays,
                    f"docs/develop/MESSAGES.md has bytes that {source} has not: {message[:30]}")


# Threads.

def threads(checks, names):
    """Finds each name of THREADS in the sources: `name` (`crate`) in that crate, another
    `Type::name` in any crate."""
    text = text_of("docs/develop/THREADS.md")
    sources = {name: text_of(name) for name in names if re.match(r"crates/\w+/src/.*\.rt$", name)}
    beside = set(re.findall(r"`([\w:]+)`(?: \(|, )`(craq\w*)`", text))
    others = {(name, "") for name in re.findall(r"`(\w+::\w+)`", text)
              if name not in {it for it, _ in beside}}
    checks.that(len(beside) > 5, "docs/develop/THREADS.md: its functions were not found")
    for name, crate in sorted(beside | others):
        found = re.compile(rf"\b{name.rpartition('::')[2]}\b *[(<:{{]")
        there = [it for it in sources if it.startswith(f"crates/{crate}/" if crate else "crates/")
                 and found.search(sources[it])]
        checks.that(there, f"docs/develop/THREADS.md names {name}, which {crate or 'no crate'} "
                    f"has{' not' if crate else ''}")


# Figures.

def measured(text):
    """Returns the rows of the first table of measurements, by the mix, the connections and the
    server. With several numbers of keys, those of the first number count."""
    table = re.search(r"(?:^\|.*\n)+", text, re.M)
    titles, *lines = rows(table[0]) if table else [[]]
    found = {}
    for it in (dict(zip(titles, line)) for line in lines):
        found.setdefault((it["Asked"], it["Connections"], it["Server"]), it)
    return found




def figures(checks):
    """Compares each number of README's section on speed with the results. Those between its marks are
    generated."""
    result = text_of("benchmarks/server/RESULTS.md")
    part = section(text_of("README.md"), "Speed")
    all_measured = {it for row in rows(result) for it in row}
    for number in re.findall(r"\b(?:[0-9]+\.[0-9]{2}|[0-9]+(?:,[0-9]{3})+)\b",
                             re.sub(r"<!-- speed -->.*<!-- end of speed -->", "", part, flags=re.S)):
        checks.that(number in all_measured,
                    f"README.md, its figures: {number}, which benchmarks/server/RESULTS.md has not")


# First lines, and blocks.

def heads(checks, names):
    for name in names:
        module = re.fullmatch(r"crates/(\w+)/src/.*\.rt", name)
        if module:
            checks.that(text_of(name).startswith("//! "),
                        f"{name} has no first line '//! ..' that says what is inside")


def marked(checks, names):
    for name in names:
        if name.endswith(".md") and (name.startswith("docs/") or name == "README.md"):
            left = re.sub(r"^```console\n.*?^```$", "", text_of(name), flags=re.M | re.S)
            checks.that(not re.search(r"^ *\$ ", left, re.M),
                        f"{name} has a command outside of the blocks that are tried")
    lines = text_of("README.md").count("\n")
    checks.that(lines < 150, f"README.md has {lines} lines, and is to have fewer than 150")


def embedded(checks):
    """Compares the page on embedding with the program that the gate proves and runs: its parts, in
    their order, its output and its line of crates.txt."""
    page, crate = text_of("docs/use/EMBEDDING.md"), "crates/craq_embedding"
    line = next((it for it in text_of("crates.txt").splitlines() if it.startswith("craq_embedding:")), "")
    for what, text in ("output", text_of(f"{crate}/stdout")), ("line of crates.txt", line + "\n"):
        checks.that(f"```text\n{text}```\n" in page,
                    f"docs/use/EMBEDDING.md shows another {what} than that of {crate}")
    rest = text_of(f"{crate}/src/main.rt")
    count = rest.count("\n")
    checks.that(f"({count} lines)" in page, f"docs/use/EMBEDDING.md has to give {crate} {count} lines")
    parts = re.findall(r"^```rust\n(.*?)^```$", page, re.M | re.S)
    checks.that(len(parts) > 2, "docs/use/EMBEDDING.md: its parts of the program were not found")
    for part in parts:
        _, found, after = rest.partition(part)
        checks.that(found, f"docs/use/EMBEDDING.md shows '{part.splitlines()[0].strip()}' and on, "
                    f"which {crate} has not, or earlier")
        rest = after if found else rest


def quoted(checks):
    """Compares the definitions and contracts that proof pages quote with the sources, and the lines
    that PROMISE counts with those that the definitions have."""
    sources = [text_of(it) for it in repository.files()
               if re.fullmatch(r"crates/\w+/(specs/\w+\.antt|src/lib\.rt)", it)]
    for page in ("PROMISE", "RECOVERY"):
        parts = re.findall(r"^```antt\n(.*?)^```$", text_of(f"docs/proof/{page}.md"), re.M | re.S)
        checks.that(parts, f"docs/proof/{page}.md: its quoted definitions were not found")
        for part in parts:
            checks.that(any(part in it for it in sources),
                        f"docs/proof/{page}.md quotes '{part.splitlines()[0]}', which no definition has")
    figures = figures_of_claims()
    for name in (it for it in repository.files() if it.endswith(".md")):
        page = " ".join(text_of(name).split())
        told = COUNTED.findall(page)
        for it in figures if name.endswith("/PROMISE.md") else figures[:1] if told else ():
            checks.that(it in page, f"{name} has to say: {it}")
        for it in told:
            checks.that(figures[0].startswith(it), f"{name} says {it}, and the theorem reaches {figures[0]}")


def promised(checks):
    """Compares the promise of README and PROMISE with its words."""
    for name in "README.md", "docs/proof/PROMISE.md":
        page = " ".join(re.sub(r"^> ", "", text_of(name), flags=re.M).split())
        checks.that(PROMISE in page, f"{name} has the promise in other words")


def readmes(checks, names):
    """Compares the README of a crate of laws with the files of its proofs."""
    found = [it for it in names if re.fullmatch(r"crates/\w+/README\.md", it)]
    checks.that(found, "the READMEs of crates were not found")
    for name in found:
        folder = name.replace("README.md", "proofs/")
        wanted = {it[len(folder):-len(".antt")] for it in names
                  if it.startswith(folder) and it.count("/") == 3}
        told = re.findall(r"`(\w+)`", text_of(name).partition("From the bottom:")[2])
        checks.same_items(f"{name}, its proofs,", sorted(told), sorted(wanted - {"Lib"}))


def scripts(checks, names):
    """Compares the scripts that proof pages name and count with the files of tools/rows."""
    worked, mended = ([it for it in names if re.fullmatch(rf"tools/rows/{folder}/[\w-]+\.script", it)]
                      for folder in ("worked", "recoveries"))
    for page in "TESTED", "TRUSTED":
        told = re.findall(r"(?:plays|the) (\d+) (?:worked )?scripts", text_of(f"docs/proof/{page}.md"))
        checks.same(f"docs/proof/{page}.md, the number of worked scripts", told, [str(len(worked))])
    table = rows(section(text_of("docs/proof/RECOVERY.md"), "Tested on the program"))[1:]
    checks.same_items("docs/proof/RECOVERY.md, its scripts,", sorted(it[0].strip("`") for it in table),
                      sorted(os.path.basename(it)[:-len(".script")] for it in mended))


def main():
    checks, names = Checks("pages"), repository.files()
    paths(checks, names)
    links(checks)
    layers(checks)
    kit(checks)
    refusals(checks)
    commands(checks)
    options(checks)
    lists(checks, names)
    walk(checks)
    diagrams(checks)
    pictures_of_runs(checks)
    limits(checks)
    worked_bytes(checks)
    threads(checks, names)
    figures(checks)
    heads(checks, names)
    marked(checks, names)
    surface(checks)
    embedded(checks)
    promised(checks)
    quoted(checks)
    readmes(checks, names)
    scripts(checks, names)
    sizes(checks)
    measures(checks)
    generated(checks)
    compare_constants(checks)
    print(f"pages: {checks.passed + checks.failed} checks, {checks.failed} faults")
    return 1 if checks.failed else 0


if __name__ == "__main__":
    sys.exit(main())
