"""Draws a stack: rows of boxes, arrows between them, and lines that part the rows.

The data has boxes by name, rows that list them from left to right, arrows, and a legend. A row of
boxes begins at its `left`. A row with a `boundary` is a line with words above and below it.
"""
from tools.pages.canvas import EDGE, LINE, WIDTH, Canvas, Rect, lines_of, pieces_of

PAD, GAP, BETWEEN = 10, 18, 26


def lines_in(box, room):
    """Returns the lines of a box with their classes: its head, its crates, and what it says."""
    crates = ", ".join(f"`{it}`" for it in box.get("crates", []))
    heads = lines_of(box["head"], room / 1.15)
    return ([("head", it) for it in heads] + [("faint", it) for it in lines_of(crates, room)]
            + [("", line) for said in box["says"] for line in lines_of(said, room)])


class Stack:
    """A stack, down to the height that is drawn so far, and where its boxes lie."""

    def __init__(self, data):
        self.data, self.canvas, self.places, self.under = data, Canvas(data["title"]), {}, EDGE
        self.boxes = {it["name"]: it for it in data["box"]}

    def row(self, row):
        """Draws the boxes of a row, all of one height."""
        left, shares = row.get("left", EDGE), [self.boxes[it].get("share", 1) for it in row["boxes"]]
        room = WIDTH - EDGE - left - GAP * (len(shares) - 1)
        wide = [int(room * it / sum(shares)) for it in shares]
        texts = [lines_in(self.boxes[it], at - 2 * PAD) for it, at in zip(row["boxes"], wide)]
        high = max(len(it) for it in texts) * LINE + 14
        for name, width, lines in zip(row["boxes"], wide, texts):
            self.places[name] = Rect(left, self.under, width, high)
            self.canvas.box(self.places[name], self.boxes[name]["kind"])
            for at, (kind, line) in enumerate(lines):
                self.canvas.write((left + PAD, self.under + 19 + at * LINE), line, kind)
            left += width + GAP
        self.under += high + row.get("under", BETWEEN)

    def boundary(self, row):
        """Draws a line with words above and below it."""
        y = self.under + 4
        self.canvas.line((EDGE, y), (WIDTH - EDGE, y), "boundary")
        for said, lower in (row["boundary"], -8), (row["below"], 18):
            self.canvas.write((row["at"], y + lower), pieces_of(said), "warns bold")
        self.under = y + row.get("under", BETWEEN)

    def arrow(self, arrow):
        """Draws an arrow between boxes of one row, or from the one row to the other."""
        start, end = self.places[arrow["from"]], self.places[arrow["to"]]
        if start.y == end.y:
            y = start.y + start.height / 2
            ends = (start.x, end.x + end.width) if start.x > end.x else (start.x + start.width, end.x)
            self.canvas.arrow((ends[0], y), (ends[1], y))
            return
        x = arrow.get("x", (max(start.x, end.x) + min(start.x + start.width, end.x + end.width)) / 2)
        ends = (start.y, end.y + end.height) if start.y > end.y else (start.y + start.height, end.y)
        self.canvas.arrow((x, ends[0]), (x, ends[1]))


def draw(data):
    """Returns the canvas of a stack."""
    stack = Stack(data)
    for row in data["row"]:
        if "boundary" in row:
            stack.boundary(row)
        else:
            stack.row(row)
    for arrow in data["arrow"]:
        stack.arrow(arrow)
    for said in data["legend"]:
        for line in lines_of(said, WIDTH - 2 * PAD):
            stack.canvas.write((PAD, stack.under), line, "faint")
            stack.under += LINE
    stack.canvas.height = int(stack.under)
    return stack.canvas
