"""Draws a matrix: the rows of a table of a page, with a coloured cell for each answer.

The data names the page and the section of the table. Its first column is text, each other one has
answers, as 'yes', perhaps with the mark of a footnote, which the picture leaves out.
"""
import re

from tools import repository
from tools.pages.canvas import EDGE, LINE, WIDTH, Canvas, Rect, lines_of, pieces_of

ANSWER, GAP, PAD = 150, 6, 8
KINDS = {"yes": "proved", "tested": "tested", "no": "trusted"}


def table_of(page, title):
    """Returns the rows of the first table of a section of a page, without code marks of footnotes."""
    part = repository.text_of(page).partition(f"\n## {title}\n")[2]
    lines = re.search(r"(?:^\|.*\n)+", part, re.M)[0].splitlines()
    return [[re.sub(r" ?[¹²³⁴⁵⁶⁷⁸⁹]+$", "", it.strip()) for it in line.strip("|").split("|")]
            for line in lines if not line.startswith("|---")]


def draw(data):
    """Returns the canvas of a matrix."""
    head, *rows = table_of(data["page"], data["section"])
    canvas, y, left = Canvas(data["title"]), 24, WIDTH - EDGE - ANSWER * (len(head) - 1)
    for at, title in enumerate(head[1:]):
        canvas.write((left + ANSWER * at + ANSWER / 2, y), pieces_of(title), "bold", "middle")
    y += 10
    for place, (said, *answers) in enumerate(rows):
        lines = lines_of(said, left - EDGE - 2 * PAD)
        high = len(lines) * LINE + 8
        if place % 2 == 0:
            canvas.box(Rect(0, y, WIDTH, high), "band", is_frame=False)
        for number, line in enumerate(lines):
            canvas.write((EDGE + PAD, y + 16 + number * LINE), line)
        for at, answer in enumerate(answers):
            area = Rect(left + ANSWER * at + GAP, y + 2, ANSWER - 2 * GAP, high - 4)
            canvas.box(area, KINDS[answer])
            canvas.write((area.x + area.width / 2, y + high / 2 + 4), pieces_of(answer), side="middle")
        y += high
    for said in data["legend"]:
        for line in lines_of(said, WIDTH - 2 * PAD):
            y += LINE
            canvas.write((PAD, y + 6), line, "faint")
    canvas.height = int(y + 16)
    return canvas
