"""Draws texts, boxes and arrows as SVG, light and dark, and finds texts that lie over something else.

Lengths are pixels of a picture that is 800 wide. Widths of texts are those of DejaVu Sans, which is
wider than most fonts that a reader's system has.
"""
from html import escape
from typing import NamedTuple

WIDTH, EDGE = 800, 4
SIZE, HEAD_SIZE, LINE = 12, 13, 16
# The width of each character from the space to the tilde, in hundredths of the size.
PLAIN = [32, 40, 46, 84, 64, 95, 78, 27, 39, 39, 50, 84, 32, 36, 32, 34, 64, 64, 64, 64, 64, 64, 64, 64, 64,
         64, 34, 34, 84, 84, 84, 53, 100, 68, 69, 70, 77, 63, 58, 77, 75, 29, 29, 66, 56, 86, 75, 79, 60, 79,
         69, 63, 61, 73, 68, 99, 69, 61, 69, 39, 34, 39, 84, 50, 50, 61, 63, 55, 63, 62, 35, 63, 63, 28, 28,
         58, 28, 97, 63, 61, 63, 63, 41, 52, 39, 63, 59, 82, 59, 59, 52, 64, 34, 64, 84]
CODE_WIDTH, BOLD = 60.2, 1.13
# The colours of each class of shapes: property, light, dark.
COLOURS = {
    "text": [("fill", "#1c2733", "#dde4ea")],
    ".faint": [("fill", "#4d5965", "#a3afbb")],
    ".holds": [("fill", "#8a4b00", "#f0b35e")],
    ".paper": [("fill", "#ffffff", "#14191f")],
    ".life": [("stroke", "#9aa5b1", "#5c6873")],
    ".arrow": [("stroke", "#1f5fa8", "#79b4f2")],
    ".tip": [("fill", "#1f5fa8", "#79b4f2")],
    ".band": [("fill", "#f1f4f7", "#1b222a")],
    ".step": [("fill", "#ffffff", "#14191f"), ("stroke", "#9aa5b1", "#5c6873")],
    ".lock": [("fill", "#c77700", "#f0b35e")],
    ".proved": [("fill", "#e6f4e9", "#15301e"), ("stroke", "#2c7a45", "#58b878")],
    ".read": [("fill", "#e5effb", "#15293f"), ("stroke", "#1f5fa8", "#79b4f2")],
    ".tested": [("fill", "#fdf0da", "#3a2b10"), ("stroke", "#a36200", "#f0b35e")],
    ".trusted": [("fill", "#eceff2", "#262f38"), ("stroke", "#5c6873", "#98a4b0")],
    ".boundary": [("stroke", "#b3261e", "#f2827d")],
    ".warns": [("fill", "#b3261e", "#f2827d")],
    ".bar1": [("fill", "#1f5fa8", "#79b4f2")],
    ".bar2": [("fill", "#8fb8e4", "#3f6ea3")],
    ".bar3": [("fill", "#b3261e", "#f2827d")],
    ".bar4": [("fill", "#7b8794", "#98a4b0")],
}
STYLE = f"""text {{ font: {SIZE}px 'DejaVu Sans', Verdana, Helvetica, sans-serif; }}
.code {{ font-family: 'DejaVu Sans Mono', Menlo, Consolas, monospace; }}
.head {{ font-weight: bold; font-size: {HEAD_SIZE}px; }}
.bold {{ font-weight: bold; }}
.life {{ stroke-width: 1.5; }}
.arrow {{ stroke-width: 1.5; fill: none; marker-end: url(#tip); }}
.boundary {{ stroke-width: 3; stroke-dasharray: 10 5; }}
"""


class Rect(NamedTuple):
    """An area: the left upper corner, the width and the height."""

    x: float
    y: float
    width: float
    height: float

    def meets(self, other):
        """Reports whether two areas have a point in common."""
        return (self.x < other.x + other.width and other.x < self.x + self.width
                and self.y < other.y + other.height and other.y < self.y + self.height)

    def holds(self, other):
        """Reports whether the other area lies inside this one."""
        return (self.x <= other.x and other.x + other.width <= self.x + self.width
                and self.y <= other.y and other.y + other.height <= self.y + self.height)


class Piece(NamedTuple):
    """A part of a text without a space: whether it is code, and whether a space stands before it."""

    text: str
    is_code: bool
    is_spaced: bool


def pieces_of(text):
    """Returns the pieces of a text whose names of code stand in backticks."""
    found = []
    for at, part in enumerate(text.split("`")):
        for place, word in enumerate(part.split(" ")):
            if word:
                found.append(Piece(word, at % 2 == 1, place > 0 or not found))
            elif place > 0:
                found.append(Piece("", at % 2 == 1, True))
    return [Piece(it.text, it.is_code, it.is_spaced or (at > 0 and not found[at - 1].text))
            for at, it in enumerate(found) if it.text]


def character_width(character):
    """Returns the width of a character in hundredths of the size; one that is not ASCII counts as wide."""
    return PLAIN[ord(character) - 32] if " " <= character <= "~" else 100


def width_of(pieces, size=SIZE, is_bold=False):
    """Returns the width of pieces that stand on one line."""
    wide = 0.0
    for at, piece in enumerate(pieces):
        letters = (" " if at and piece.is_spaced else "") + piece.text
        wide += sum(CODE_WIDTH if piece.is_code else character_width(it) * (BOLD if is_bold else 1)
                    for it in letters)
    return wide * size / 100


def lines_of(text, room):
    """Returns the lines of a text, each as its pieces, that fit this width."""
    lines, line = [], []
    for piece in pieces_of(text):
        if line and piece.is_spaced and width_of([*line, piece]) > room:
            lines.append(line)
            line = []
        line.append(piece)
    return [*lines, line] if line else lines


class Canvas:
    """A picture: its shapes in the order of drawing, and where its texts, boxes and arrows lie."""

    def __init__(self, title):
        self.title, self.height = title, 0
        self.shapes, self.texts, self.boxes, self.arrows = [], [], [], []

    def write(self, at, pieces, kind="", side="start"):
        """Writes one line of text. `at` is the left end, the middle or the right end of its base line."""
        x, y = at
        is_head, is_bold = "head" in kind.split(), {"head", "bold"} & set(kind.split())
        wide = width_of(pieces, HEAD_SIZE if is_head else SIZE, is_bold)
        left = x - wide * {"start": 0, "middle": 0.5, "end": 1}[side]
        self.texts.append((Rect(left, y - 10, wide, 13), " ".join(it.text for it in pieces)))
        runs = "".join((" " if place and it.is_spaced else "")
                       + (f'<tspan class="code">{escape(it.text)}</tspan>' if it.is_code else escape(it.text))
                       for place, it in enumerate(pieces))
        of_kind = f' class="{kind}"' if kind else ""
        anchor = f' text-anchor="{side}"' if side != "start" else ""
        self.shapes.append(f'<text{of_kind} x="{x:g}" y="{y:g}"{anchor}>{runs}</text>')

    def box(self, rect, kind, is_frame=True):
        """Draws a box. A text whose middle lies inside a frame has to lie inside it as a whole."""
        if is_frame:
            self.boxes.append(rect)
        x, y, width, height = rect
        self.shapes.append(f'<rect class="{kind}" x="{x:g}" y="{y:g}" width="{width:g}" height="{height:g}"'
                           f'{" rx=" + chr(34) + "4" + chr(34) if is_frame else ""}/>')

    def line(self, start, end, kind):
        self.shapes.append(f'<path class="{kind}" d="M{start[0]:g} {start[1]:g}L{end[0]:g} {end[1]:g}"/>')

    def arrow(self, start, end):
        """Draws an arrow that is level or upright."""
        self.arrows.append(Rect(min(start[0], end[0]) - 1, min(start[1], end[1]) - 1,
                                abs(start[0] - end[0]) + 2, abs(start[1] - end[1]) + 2))
        self.line(start, end, "arrow")

    def faults(self):
        """Yields what is wrong with the places of texts: outside, over an arrow or over one another."""
        paper = Rect(0, 0, WIDTH, self.height)
        for at, (area, text) in enumerate(self.texts):
            middle = Rect(area.x + area.width / 2, area.y + area.height / 2, 1, 1)
            for box in self.boxes:
                if box.meets(middle) and not box.holds(area):
                    yield f"'{text}' does not fit its box"
            if not paper.holds(area):
                yield f"'{text}' does not fit the picture"
            if any(it.meets(area) for it in self.arrows):
                yield f"'{text}' lies over an arrow"
            for other, name in self.texts[:at]:
                if other.meets(area):
                    yield f"'{text}' lies over '{name}'"

    def svg(self):
        """Returns the picture as SVG."""
        def rules(shade):
            return "\n".join(f"{kind} {{ " + " ".join(f"{it[0]}: {it[shade]};" for it in rule) + " }"
                             for kind, rule in COLOURS.items())
        size = f'viewBox="0 0 {WIDTH} {self.height}" width="{WIDTH}" height="{self.height}"'
        marker = ('<marker id="tip" viewBox="0 0 10 10" refX="10" refY="5" markerWidth="8" markerHeight="8" '
                  'markerUnits="userSpaceOnUse" orient="auto">'
                  '<path class="tip" d="M0 1L10 5L0 9z"/></marker>')
        return "\n".join([
            f'<svg xmlns="http://www.w3.org/2000/svg" {size}>', f"<title>{escape(self.title)}</title>",
            "<style>", STYLE + rules(1), "@media screen and (prefers-color-scheme: dark) {", rules(2), "}",
            "</style>", f"<defs>{marker}</defs>",
            f'<rect class="paper" x="0" y="0" width="{WIDTH}" height="{self.height}"/>',
            *self.shapes, "</svg>", ""])
