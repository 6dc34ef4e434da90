"""Makes the figures of README.md from benchmarks/server/RESULTS.md: its table, the sentences below it
on what is slowest, and the picture docs/diagrams/speed.svg.

tools/pages/generate puts table and sentences between the marks of README.md. The picture is drawn with
the others, by tools/python tools.pages.diagrams --write. Table and picture have the mixes and the
servers of docs/diagrams/speed.toml that were measured, with the first number of keys and of
connections of the results.
"""
import re
import tomllib

from tools import repository
from tools.pages.canvas import EDGE, Canvas, Rect, pieces_of
from tools.pages.tables import wrapped

RESULTS, PAGE, DATA = "benchmarks/server/RESULTS.md", "README.md", "docs/diagrams/speed.toml"
BEGIN, END = "<!-- speed -->\n", "<!-- end of speed -->\n"
BESIDE, FASTEST, PUTS = "redis", "craqd --threads 2", "puts at the head"
# The number of keys at which memory is compared, and the number of smallest ratios that are named.
MANY, LEAST = "1,000,000", 3
RATE, TIME, RATIO, SPREAD = "A second", "Processor time a reply, µs", "Times redis", "Times redis, spread"
LATENCY, LATE_AT_RATE = "Median, µs", "Median, times redis"
BUSY_AT_RATE = "Processor time, times redis"
# The picture: for replies a second and for processor time the left end of the bars, and the length
# of the longest.
BARS = ((RATE, 140, 330), (TIME, 560, 170))
ROW, BAR, GROUP = 18, 12, 26


def tables():
    """Returns the heading of the results, and the rows of each of their tables by column."""
    text = repository.text_of(RESULTS)
    found = []
    for it in re.findall(r"(?:^\|.*\n)+", text, re.M):
        titles, _, *lines = it.splitlines()
        found.append([dict(zip(cells(titles), cells(line))) for line in lines])
    return text.partition("\n")[0], found


def results():
    """Returns the heading of the results, and the rows of their first table by mix and server: those
    of the first number of keys and of connections."""
    heading, (rows, *_) = tables()
    found, first = {}, None
    for row in rows:
        case = row.get("Keys"), row["Connections"]
        first = first or case
        if case == first:
            found[row["Asked"], row["Server"]] = row
    return heading, found


def cells(line):
    return [it.strip() for it in line.strip().strip("|").split("|")]


def shown(data, found):
    """Returns the mixes and the servers of the data that were measured, in the order of the data."""
    return ([mix for mix in data["mixes"] if any(mix == of for of, _ in found)],
            [server for server in data["servers"] if any(server == of for _, of in found)])


def data_of():
    return tomllib.loads(repository.text_of(DATA))


def block():
    """Returns the table of README.md, and the line below it."""
    heading, found = results()
    mixes, servers = shown(data_of(), found)
    head = ["Replies a second (µs of processor each)", *servers, f"times {BESIDE}"]
    lines = [head, ["---"] * len(head)]
    for mix in mixes:
        row = [found.get((mix, server)) for server in servers]
        shown_in = (f"{it[RATE]} ({it[TIME]})" if it else "" for it in row)
        lines.append([mix, *shown_in, ratio_of(row[0])])
    table = "\n".join("|" + "|".join(f" {it} " if it != "---" else it for it in line) + "|" for line in lines)
    day, _, setting = heading.partition(": ")
    keys = next((f", {it['Keys']} keys" for it in found.values() if "Keys" in it), "")
    below = (f"{day}{keys}, {setting} (`{RESULTS}`). *Times {BESIDE}* is of `{servers[0]}`: the "
             "median of the ratios of the rounds, and their range.")
    return f"{table}\n\n{wrapped(below)}\n\n{wrapped(slowest())}\n"


def ratio_of(row):
    """Returns the median of the ratios of a row's rounds, and the smallest and largest of them."""
    return f"{row[RATIO]} ({row[SPREAD]})" if row and row[RATIO] else ""


def weakest(rows):
    """Returns the rows with the smallest ratios, each of another mix."""
    found = {}
    for row in sorted(rows, key=lambda it: number(it[RATIO])):
        found.setdefault(row["Asked"], row)
    return list(found.values())[:LEAST]


def above(rows, column):
    """Returns by how much the fastest way of serving exceeds redis most in a column, and the row."""
    return max(((number(it[column]) / number(one(rows, {**of_case(it), "Server": BESIDE})[column]), it)
                for it in rows if it["Server"] == FASTEST), key=lambda it: it[0])


def of_case(row):
    """Returns the cells of a row that say what was asked."""
    return {it: row[it] for it in ("Asked", "Keys", "Connections")}


def slowest():
    """Returns the sentences on what the fastest way of serving does worst, as the results have it: its
    smallest ratios, its largest median latency and processor time, puts beside memcached, and memory."""
    _, (closed, opened, memory) = tables()
    first = results()[1]
    least = "; ".join(f"{it['Asked']} {ratio_of(it)}, {it['Keys']} keys"
                      for it in weakest([it for it in closed if it["Server"] == FASTEST]))
    (late, late_at), (busy, busy_at) = (above(closed, column) for column in (LATENCY, TIME))
    at_rate = [max((it for it in opened if it["Server"] == FASTEST), key=lambda it: number(it[column]))
               for column in (LATE_AT_RATE, BUSY_AT_RATE)]
    puts, others = (number(first[PUTS, it][RATE]) for it in (FASTEST, "memcached"))
    held, beside = (one(memory, {"Keys": MANY, "Server": it})["Memory, MB"] for it in (FASTEST, BESIDE))
    case = "" if late_at is busy_at else f" ({late_at['Asked']}, {late_at['Keys']} keys)"
    return (f"Where `{FASTEST}` is weakest, times {BESIDE}: {least}. Its median latency is at most "
            f"{late:.1f} times {BESIDE}'{case}, its processor time {busy:.1f} times ({busy_at['Asked']}, "
            f"{busy_at['Keys']} keys); at a fixed rate {at_rate[0][LATE_AT_RATE]} "
            f"({at_rate[0]['Due a second']} a second) and {at_rate[1][BUSY_AT_RATE]} "
            f"({at_rate[1]['Due a second']}). memcached makes {others / puts:.1f} times its puts. Three "
            f"replicas of {MANY} objects take {held} MB, {BESIDE}' one copy {beside}.")


def one(rows, wanted):
    """Returns the first row that has these cells."""
    return next(row for row in rows if wanted.items() <= row.items())


def number(text):
    return float(text.replace(",", ""))


def draw(data):
    """Returns the canvas of the picture: for each mix a group of bars, one for each server."""
    _, found = results()
    mixes, servers = shown(data, found)
    canvas, y = Canvas(data["title"]), 18
    for (field, left, room), title in zip(BARS, data["titles"]):
        canvas.write((left, y), pieces_of(title), "head")
    for mix in mixes:
        y += GROUP
        canvas.write((EDGE, y), pieces_of(mix), "bold")
        for server in servers:
            y += ROW
            canvas.write((EDGE + 8, y), pieces_of(server))
            for field, left, room in BARS:
                bar(canvas, found, (mix, server), field, left, room, servers.index(server), y)
    canvas.height = y + 12
    return canvas


def bar(canvas, found, key, field, left, room, at, y):
    """Draws a bar with its number; the longest bar of a field has all the room."""
    if key not in found:
        return
    most = max(number(it[field]) for (_, server), it in found.items() if server in data_of()["servers"])
    wide = number(found[key][field]) / most * room
    canvas.box(Rect(left, y - BAR + 2, round(wide, 1), BAR), f"bar{at + 1}", is_frame=False)
    canvas.write((left + round(wide) + 6, y), pieces_of(found[key][field]))


def page():
    """Returns README.md with the figures as they should be."""
    before, _, rest = repository.text_of(PAGE).partition(BEGIN)
    return before + BEGIN + block() + END + rest.partition(END)[2]
