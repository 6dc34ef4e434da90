"""Makes docs/proof/DEFINITIONS.md: how far the definitions reach that a claim cites, those of layer 1
one by one, and the modules of the other layers."""
from collections import Counter

from tools.pages import definitions
from tools.pages.sizes import MOST_IN_CELL, words
from tools.pages.tables import filled, layers, table, wrapped

TYPES = "src/"
# A claim, its contract (file and function), and how the page names the function.
CLAIMS = (("Every run is explained", "craq_promise/src/lib.rt", "every_run_is_explained", ""),
          ("Chains in one thread keep that", "craq_world/src/world.rt", "take", "World::take"),
          ("A node as code takes the defined step", "craq_node/src/core_trait.rt", "step", "Core::step"),
          ("An audit that merges found a run", "craq_audit/src/auditing.rt", "audit", ""),
          ("The replies of a connection", "craq_front/src/serving.rt", "serve", ""),
          ("A chain recovers", "craq_recovery/src/lib.rt", "chains_recover", ""),
          ("One list explains a running store's replies", "craq_running_promise/src/lib.rt",
           "strong_replies_are_of_one_copy", ""),
          ("A call's reply is in the history", "craq_workers/src/client.rt", "call", "Client::call"),
          ("A connection's replies are in the history", "craq_server/src/laws.rt",
           "connections_are_witnessed", ""))

# The crates that a row of the table of claims names.
MOST_CRATES = 6


def beyond(found):
    """Returns the lines of definitions and types that the theorem does not reach, by crate."""
    theorem, lines = definitions.reach(*CLAIMS[0][1:3]), Counter()
    for key, it in found.items():
        if key not in theorem:
            lines[it.module.partition("/")[0]] += it.lines
    return lines


def lines_of(found):
    """Returns the lines of definitions, and those of types."""
    types = sum(it.lines for it in found.values() if TYPES in it.module)
    return sum(it.lines for it in found.values()) - types, types


def figures_of_claims():
    """Returns what docs/proof/PROMISE.md has to say of the lines that one reads."""
    theorem, world, step = (definitions.reach(path, function) for _, path, function, _ in CLAIMS[:3])
    own, types = lines_of(theorem)
    crates = len({it.module.partition("/")[0] for it in theorem.values()})
    return (f"{own:,} lines of definitions and {types:,} lines of types, in {crates} crates",
            f"runs, for {sum(beyond(world).values())} lines more",
            f"takes it, for {sum(beyond(step).values())}")


def by_crate(lines):
    """Returns the crates with their lines as text: those with most lines, and how many others."""
    most = sorted(sorted(lines, key=lambda it: -lines[it])[:MOST_CRATES])
    text = ", ".join(f"`{it}` {lines[it]}" for it in most)
    return text + (f"; {len(lines) - len(most)} more" if len(lines) > len(most) else "")


def reached():
    """Returns a row for each claim: its lines, and those that the theorem does not reach."""
    head = ("Claim", "Contract", "Definitions", "Lines", "of types", "Lines beyond the theorem", "in crates")
    rows = []
    for claim, path, function, name in CLAIMS:
        found = definitions.reach(path, function)
        own, types = lines_of(found)
        more = beyond(found)
        rows.append((claim, f"`{name or function}`", str(len(found)), f"{own + types:,}", str(types),
                     str(sum(more.values())), by_crate(more)))
    return table(head, rows)


def said(comment):
    """Returns the first sentence of a comment, up to a colon if it is long."""
    text = definitions.first_sentence(comment)
    return text if words(text) <= MOST_IN_CELL else text.partition(":")[0] + "."


def link(module):
    return f"[`{module.name}`](../../crates/{module.crate}/specs/{module.name}.antt)"


def modules_in(crate):
    return [it for (own, _), it in definitions.modules().items() if own == crate]


def types_in(crate):
    """Returns a sentence that names the types of a crate with the lines of their declarations."""
    own = [it for (place, _), it in definitions.types().items() if place == crate]
    return wrapped(f"Types, {sum(it.lines for it in own)} lines of `{crate}/src`: "
                   + ", ".join(f"`{it.name}`" for it in own) + ".")


def one_by_one(crates):
    """Returns a part for each crate: a row for each module and each definition with a comment."""
    head, parts = ("Module", "Definition", "Lines", "Meaning"), []
    for crate in crates:
        rows = []
        for module in modules_in(crate):
            rows.append((link(module), "", str(module.lines), said(module.comment)))
            rows += [("", f"`{it.name}`", str(it.lines), said(it.comment))
                     for it in module.definitions.values() if it.comment]
        parts.append(f"### {crate}\n\n{table(head, rows)}\n\n{types_in(crate)}")
    return "\n\n".join(parts)


def by_module(number, title, crates):
    """Returns the part of a layer: a row for each module of its crates."""
    rows = [(f"`{crate}`" if at == 0 else "", link(module), str(module.lines), said(module.comment))
            for crate in crates for at, module in enumerate(modules_in(crate))]
    return f"## {number}. {title}\n\n{table(('Crate', 'Module', 'Lines', 'Meaning'), rows)}"


def page():
    (_, title, believed), *others = layers()
    return filled("definitions.md", {
        "reached": reached(), "believed": f"## 1. {title}\n\n{one_by_one(believed)}",
        "others": "\n\n".join(by_module(*it) for it in others)})


def check(checks):
    """Tests that each module says what it defines, and that no meaning has more than 25 words."""
    believed = layers()[0][2]
    for (crate, name), module in definitions.modules().items():
        place = f"crates/{crate}/specs/{name}.antt"
        checks.that(module.comment, f"{place} has no first comment")
        for it in (module, *(module.definitions.values() if crate in believed else ())):
            count = words(said(it.comment))
            checks.that(count <= MOST_IN_CELL, f"{place}, {it.name}: its comment has {count} words")
