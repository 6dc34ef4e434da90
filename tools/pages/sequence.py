"""Draws a sequence diagram: a column for each lane, time downwards.

The data has lanes, groups of lanes, rows, and a legend. A row is a step at a lane, or a message from
one lane to another. A step that is `beside` stands at the height of the step before it. A step that
`holds` a lock has a bar at its left.
"""
from tools.pages.canvas import LINE, WIDTH, Canvas, Rect, lines_of, pieces_of

PAD, GAP, ARROW, BAR, HEAD, GROUP, TOP = 8, 8, 28, 5, 40, 22, 8
INDENT = 8


class Lane:
    """A column: its words, its left edge and its width."""

    def __init__(self, data, left):
        self.head, self.left, self.width = data["head"], left, data["width"]

    @property
    def middle(self):
        return self.left + self.width / 2


class Diagram:
    """A sequence diagram, down to the height that is drawn so far."""

    def __init__(self, data):
        self.data, self.canvas = data, Canvas(data["title"])
        self.lanes, left = {}, 0
        for it in data["lane"]:
            self.lanes[it["name"]] = Lane(it, left)
            left += it["width"]
        if left != WIDTH:
            raise ValueError(f"the lanes are {left} wide in all, and have to be {WIDTH}")
        self.top = GROUP if data.get("group") else TOP
        self.under = self.top + HEAD
        self.before = self.under

    def heads(self, bottom):
        """Draws the groups, the names of the lanes and their life lines, down to a height."""
        for group in self.data.get("group", []):
            first, last = self.lanes[group["lanes"][0]], self.lanes[group["lanes"][-1]]
            wide = last.left + last.width - first.left
            self.canvas.box(Rect(first.left, 0, wide, bottom), "band", is_frame=False)
            self.canvas.write((first.left + wide / 2, 17), pieces_of(group["head"]), "head", "middle")
        for lane in self.lanes.values():
            for at, words in enumerate(reversed(lane.head)):
                self.canvas.write((lane.middle, self.top + HEAD - 12 - at * LINE), pieces_of(words), "head",
                                  "middle")
            self.canvas.line((lane.middle, self.top + HEAD - 5), (lane.middle, bottom), "life")

    def step(self, row):
        """Draws a step: a box with its lines."""
        lane = self.lanes[row["at"]]
        room = lane.width - GAP - 2 * PAD
        lines = [(0, it, "holds") for it in lines_of(f"locks {row['holds']}", room)
                 ] if "holds" in row else []
        for said in row["says"]:
            for place, line in enumerate(lines_of(said, room - INDENT)):
                lines.append((INDENT if place else 0, line, ""))
        top = self.before if row.get("beside") else self.under
        rect = Rect(lane.left + GAP / 2, top, lane.width - GAP, len(lines) * LINE + 10)
        self.canvas.box(rect, "step")
        if "holds" in row:
            self.canvas.box(Rect(rect.x, rect.y, BAR, rect.height), "lock", is_frame=False)
        for place, (indent, line, kind) in enumerate(lines):
            self.canvas.write((rect.x + PAD + indent, top + 17 + place * LINE), line, kind)
        self.before, self.under = top, max(self.under, top + rect.height)

    def message(self, row):
        """Draws a message: an arrow, and its words above the arrow, between two life lines."""
        start, end = self.lanes[row["from"]], self.lanes[row["to"]]
        y = self.under + ARROW - 7
        near = min((it for it in self.lanes.values() if it is not start
                    and (it.middle > start.middle) == (end.middle > start.middle)),
                   key=lambda it: abs(it.middle - start.middle))
        left, wide = min(start.middle, near.middle), abs(start.middle - near.middle)
        self.canvas.boxes.append(Rect(left, self.under, wide, ARROW))
        self.canvas.write((left + wide / 2, y - 6), pieces_of(row["says"]), side="middle")
        self.canvas.arrow((start.middle, y), (end.middle, y))
        self.under += ARROW

    def legend(self):
        """Writes the legend under the lanes."""
        self.under += 6
        for said in self.data["legend"]:
            for line in lines_of(said, WIDTH - 2 * PAD):
                self.under += LINE
                self.canvas.write((PAD, self.under), line, "faint")
        self.canvas.height = int(self.under + 10)


def draw(data):
    """Returns the canvas of a sequence diagram."""
    diagram, was_step = Diagram(data), False
    for row in data["row"]:
        if "at" in row:
            if was_step and not row.get("beside"):
                diagram.under += GAP
            diagram.step(row)
        else:
            diagram.message(row)
        was_step = "at" in row
    diagram.under += GAP
    above, diagram.canvas.shapes = diagram.canvas.shapes, []
    diagram.heads(diagram.under)
    diagram.canvas.shapes += above
    diagram.legend()
    return diagram.canvas
