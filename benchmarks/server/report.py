"""Writes the measures of a run as tables and as a chart."""
import statistics
from xml.sax.saxutils import escape

BESIDE = "redis"
MICRO = "µs"
# The chart: its width, that of its three columns and of their bars, and the height of a bar with its
# gap.
WIDTH, COLUMN, BAR, STEP = 800, 262, 155, 19
# The colours of the servers on a light ground and on a dark one.
COLOURS = (("#1f5fa8", "#79b4f2"), ("#8fb8e4", "#3f6ea3"), ("#b3261e", "#f2827d"), ("#7b8794", "#98a4b0"),
           ("#2c7a45", "#58b878"), ("#7b3fa0", "#c39bdf"))
SHADES = """text { fill: %s; }
.paper { fill: %s; }
.head { fill: %s; }
.spread { stroke: %s; }
"""
STYLE = """text { font: 12px 'DejaVu Sans', Verdana, sans-serif; }
.title { font-weight: bold; font-size: 14px; }
.spread { stroke-width: 1.5; }
"""
# A bar is cut where it would be longer than this many times that of redis.
CUT = 4


def median(rounds, field):
    return statistics.median(getattr(it, field) for it in rounds)


def spread(values, form):
    return f"{form.format(min(values))} to {form.format(max(values))}"


def ratios(rounds, beside, field):
    """Returns how many times as much as the other server each round has, or nothing if there is no
    other server."""
    return [getattr(mine, field) / getattr(its, field) for mine, its in zip(rounds, beside or [])]


def times(rounds, beside, field):
    """Returns the median of the ratios as text; empty if there are none."""
    found = ratios(rounds, beside, field)
    return f"{statistics.median(found):.2f}" if found else ""


def of(rounds, field):
    """Returns a field of each round."""
    return [getattr(it, field) for it in rounds]


def others(run, case, name):
    """Returns the rounds of redis for the same case; none for redis itself."""
    return run.found.get((case, BESIDE)) if name != BESIDE else None


def table(titles, lines):
    head = ["| " + " | ".join(titles) + " |", "|" + "---|" * len(titles)]
    return "\n".join([*head, *("| " + " | ".join(line) + " |" for line in lines)]) + "\n"


def closed_row(run, mixes, case, name):
    rounds, beside = run.found[case, name], others(run, case, name)
    found = ratios(rounds, beside, "rate")
    return [mixes[case.mix], f"{case.keys:,}", str(case.connections), name, f"{median(rounds, 'rate'):,.0f}",
            spread(of(rounds, "rate"), "{:,.0f}"), f"{median(rounds, 'median'):,.0f}",
            f"{median(rounds, 'late'):,.0f}",
            f"{median(rounds, 'later'):,.0f}", f"{median(rounds, 'processor'):.1f}",
            times(rounds, beside, "rate"),
            spread(found, "{:.2f}") if found else "", times(rounds, beside, "late")]


def open_row(run, mixes, case, name):
    rounds, beside = run.found[case, name], others(run, case, name)
    return [mixes[case.mix], f"{case.keys:,}", f"{case.rate:,}", name, f"{median(rounds, 'rate'):,.0f}",
            f"{median(rounds, 'median'):,.0f}", spread(of(rounds, "median"), "{:,.0f}"),
            f"{median(rounds, 'late'):,.0f}",
            spread(of(rounds, "late"), "{:,.0f}"), f"{median(rounds, 'later'):,.0f}",
            f"{median(rounds, 'processor'):.1f}", times(rounds, beside, "median"),
            times(rounds, beside, "processor")]


def memory_row(keys, name, rounds):
    total, each = (statistics.median(it) for it in zip(*rounds))
    return [f"{keys:,}", name, f"{total / 1e6:,.0f}", f"{each:,.0f}" if keys >= 10_000 else ""]


CLOSED = ("Asked", "Keys", "Connections", "Server", "A second", "A second, spread", f"Median, {MICRO}",
          f"99th percentile, {MICRO}", f"99.9th, {MICRO}", f"Processor time a reply, {MICRO}", "Times redis",
          "Times redis, spread", "99th, times redis")
OPEN = ("Asked", "Keys", "Due a second", "Server", "A second", f"Median, {MICRO}", "Median, spread",
        f"99th percentile, {MICRO}", "99th, spread", f"99.9th, {MICRO}", f"Processor time a reply, {MICRO}",
        "Median, times redis", "Processor time, times redis")
MEMORY = ("Keys", "Server", "Memory, MB", "Bytes a key")


def page(heading, run, mixes):
    """Returns the page of results: the heading, then the tables of the closed loop, the open loop
    and the memory."""
    closed = [closed_row(run, mixes, *it) for it in run.found if not it[0].rate]
    paced = [open_row(run, mixes, *it) for it in run.found if it[0].rate]
    memory = [memory_row(*it, rounds) for it, rounds in run.memory.items()]
    parts = [heading + "\n\n" + table(CLOSED, closed)]
    if paced:
        parts.append("## Open loop: latencies from the moment that a request was due\n\n"
                     + table(OPEN, paced))
    parts.append("## Memory once each key is written\n\ncraqd holds three replicas in one process.\n\n"
                 + table(MEMORY, memory))
    return "\n".join(parts)


# The chart.

def text(x, y, words, more=""):
    return f'<text x="{x:.0f}" y="{y:.0f}" {more}>{escape(words)}</text>'


def bars(x, y, values, forms, most):
    """Returns bars with their values: for each server the least, the median and the greatest of its
    rounds."""
    found = []
    for at, (server, (least, middle, greatest)) in enumerate(values):
        top, scale = y + at * STEP, BAR / most
        length = min(middle, most) * scale
        found.append(f'<rect class="{server}" x="{x}" y="{top}" width="{length:.1f}" height="{STEP - 5}"/>')
        if middle <= most:
            begin, end, line = x + least * scale, x + min(greatest, most) * scale, top + (STEP - 5) / 2
            found.append(f'<path class="spread" d="M{begin:.1f} {line}H{end:.1f}"/>')
        shown = max(length, min(greatest, most) * scale)
        mark = "" if middle <= most else " (cut)"
        found.append(text(x + shown + 5, top + STEP - 8, forms.format(middle) + mark))
    return found


def measures(run, case, field, classes):
    """Returns the class and the least, median and greatest of a field for each server that measured
    the case."""
    found = []
    for name, server in classes.items():
        if rounds := run.found.get((case, name)):
            values = of(rounds, field)
            found.append((server, (min(values), statistics.median(values), max(values))))
    return found


def cell(run, case, field, form, x, y, classes):
    """Returns the bars of one case and field. Those much longer than that of redis are cut."""
    values = measures(run, case, field, classes)
    beside = run.found.get((case, BESIDE))
    most = max(greatest for _, (_, _, greatest) in values)
    return bars(x, y, values, form, min(most, CUT * median(beside, field)) if beside else most)


def closed_part(run, mixes, y, classes):
    """Returns the rows of mixes with a column for each number of keys, and the place below them."""
    cases = [it for it in dict.fromkeys(case for case, _ in run.found) if not it.rate]
    columns = list(dict.fromkeys((it.keys, it.connections) for it in cases))[:3]
    found = [text(10, y, "Replies a second, closed loop", 'class="title"')]
    for at, (keys, many) in enumerate(columns):
        found.append(text(10 + at * COLUMN, y + 22,
                          f"{keys:,} key{'s' if keys > 1 else ''}, {many} connections", 'class="head"'))
    y += 44
    for mix in dict.fromkeys(it.mix for it in cases):
        found.append(text(10, y, mixes[mix]))
        for at, (keys, many) in enumerate(columns):
            for case in (it for it in cases if (it.mix, it.keys, it.connections) == (mix, keys, many)):
                found += cell(run, case, "rate", "{:,.0f}", 10 + at * COLUMN, y + 8, classes)
        y += 34 + STEP * len(classes)
    return found, y


def open_part(run, mixes, y, classes):
    """Returns the rows of rates with a column for each of three figures, and the place below them."""
    cases = [it for it in dict.fromkeys(case for case, _ in run.found) if it.rate]
    if not cases:
        return [], y
    columns = (("median", f"median latency, {MICRO}", "{:,.0f}"),
               ("late", f"99th percentile, {MICRO}", "{:,.0f}"),
               ("processor", f"processor time a reply, {MICRO}", "{:.1f}"))
    found = [text(10, y, f"Open loop, {cases[0].keys:,} keys, {cases[0].connections} connections",
                  'class="title"')]
    for at, (_, title, _) in enumerate(columns):
        found.append(text(10 + at * COLUMN, y + 22, title, 'class="head"'))
    y += 44
    for case in cases:
        found.append(text(10, y, f"{mixes[case.mix]}, {case.rate:,} a second"))
        for at, (field, _, form) in enumerate(columns):
            found += cell(run, case, field, form, 10 + at * COLUMN, y + 8, classes)
        y += 34 + STEP * len(classes)
    return found, y


def style_of(servers):
    """Returns the colours of the chart, on a light ground and on a dark one."""
    rules = []
    for shade, inks in enumerate((("#1c2733", "#ffffff", "#4d5965", "#1c2733"),
                                  ("#dde4ea", "#14191f", "#a3afbb", "#dde4ea"))):
        colours = "".join(f".s{at} {{ fill: {COLOURS[at % len(COLOURS)][shade]}; }}\n"
                          for at in range(servers))
        rules.append(SHADES % inks + colours)
    return (f"<style>\n{STYLE}{rules[0]}"
            f"@media screen and (prefers-color-scheme: dark) {{\n{rules[1]}}}\n</style>")


def chart(run, mixes):
    """Returns the chart as SVG: bars of the medians, with a line from the least to the greatest of
    the rounds."""
    names = list(dict.fromkeys(name for _, name in run.found))
    classes = {name: f"s{at}" for at, name in enumerate(names)}
    found = []
    for at, (name, server) in enumerate(classes.items()):
        found.append(f'<rect class="{server}" x="{10 + at * 150}" y="10" width="14" height="14"/>')
        found.append(text(30 + at * 150, 22, name))
    closed, y = closed_part(run, mixes, 56, classes)
    paced, y = open_part(run, mixes, y + 16, classes)
    size = f'viewBox="0 0 {WIDTH} {y}" width="{WIDTH}" height="{y}"'
    lines = [f'<svg xmlns="http://www.w3.org/2000/svg" {size} role="img">',
             "<title>craqd beside other servers</title>", style_of(len(names)),
             f'<rect class="paper" width="{WIDTH}" height="{y}"/>', *found, *closed, *paced]
    return "\n".join([*lines, "</svg>"]) + "\n"
