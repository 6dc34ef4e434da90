"""Checks the links of pages: each names a file of the repository, and a heading of a page if it has
'#'. Links to other places are not looked at."""
import os
import re

from tools import repository
from tools.pages.sizes import without_blocks

LINK = re.compile(r"\]\(([^()\s]+)\)")


def anchors(text):
    """Returns the names by which a page's headings are linked: lower case, blanks as hyphens, and no
    other sign."""
    titles = re.findall(r"^#+ (.*)$", without_blocks(text), re.M)
    return {re.sub(r"[^\w\- ]", "", it.lower()).replace(" ", "-") for it in titles}


def links(checks):
    """Finds the file, and the heading, of each link of each page."""
    for page in (it for it in repository.files() if it.endswith(".md")):
        for link in LINK.findall(without_blocks(repository.text_of(page))):
            if "://" in link:
                continue
            path, _, anchor = link.partition("#")
            target = os.path.normpath(os.path.join(os.path.dirname(page), path)) if path else page
            there = os.path.exists(repository.path(target))
            checks.that(there, f"{page} links to {link}, which is not there")
            checks.that(not anchor or (there and anchor in anchors(repository.text_of(target))),
                        f"{page} links to {link}, which is no heading")
