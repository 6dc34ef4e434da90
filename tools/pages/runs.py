"""Finds what a page would show badly in the pictures of runs, docs/pictures, which craq_lab draws: small
texts, and labels over an arrow or over one another."""
import glob
import os
import re
import xml.etree.ElementTree as xml

from tools import repository
from tools.pages.canvas import WIDTH, Rect, pieces_of, width_of

FOLDER = "docs/pictures"
SVG = "{http://www.w3.org/2000/svg}"
LINES, LABELS = {"message", "ignored", "lost"}, {"label", "who", "why", "answer", "move"}
LEAST_SIZE = 12


def area_of(text):
    """Returns the area of a text of 12 pixels."""
    wide = width_of(pieces_of(text.text.replace("`", "'")))
    left = float(text.get("x")) - wide * {"start": 0, "middle": 0.5, "end": 1}[text.get("text-anchor")]
    return Rect(left, float(text.get("y")) - 9, wide, 11)


def passes(line, area):
    """Reports whether a line, as ((x, y), (x, y)) with its left end first, passes through an area."""
    (x, y), (far, low) = line
    left, right = max(x, area.x), min(far, area.x + area.width)
    if left > right:
        return False
    heights = [y + (low - y) * (at - x) / (far - x) if far > x else y for at in (left, right)]
    return min(heights) <= area.y + area.height and max(heights) >= area.y


def faults_of(picture):
    """Yields what is wrong with a picture."""
    root = xml.fromstring(picture)
    wide = float(root.get("viewBox").split()[2])
    for size in re.findall(r"(\d+)px '|font-size: (\d+)px", picture):
        if float(size[0] or size[1]) * min(1, WIDTH / wide) < LEAST_SIZE:
            yield f"a text of less than {LEAST_SIZE} px at a width of {WIDTH}"
    lines = [tuple(sorted((float(x), float(y)) for x, y in re.findall(r"(\d+) (\d+)", it.get("d"))))
             for it in root.iter(SVG + "path") if it.get("class") in LINES]
    labels = [(area_of(it), it.text) for it in root.iter(SVG + "text") if it.get("class") in LABELS]
    for at, (area, text) in enumerate(labels):
        if any(passes(line, area) for line in lines):
            yield f"'{text}' lies over an arrow"
        for other, name in labels[:at]:
            if other.meets(area):
                yield f"'{text}' lies over '{name}'"
        if not Rect(0, 0, wide, 1e9).holds(area):
            yield f"'{text}' does not fit the picture"


def pictures_of_runs(checks):
    """Checks each picture of docs/pictures."""
    for path in sorted(glob.glob(repository.path(FOLDER, "*.svg"))):
        name = os.path.basename(path)
        found = list(faults_of(repository.text_of(FOLDER, name)))
        checks.that(not found, f"{FOLDER}/{name}: " + "; ".join(found[:4]))
