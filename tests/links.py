"""The links of pages: each leads to a file that is there, and to a heading that it has."""
import os
import re
import urllib.parse

BLOCK = re.compile(r"^```.*?^```", re.M | re.S)
CODE = re.compile(r"`[^`\n]*`")
LINK = re.compile(r"!?\[[^\]]*\]\(([^)\s]+)\)")
HEADING = re.compile(r"^#+ +(.*?) *#*$", re.M)


def text_of(path):
    with open(path, encoding="utf-8") as file:
        return BLOCK.sub("", file.read())


def anchors(path):
    """The names by which the headings of a page are linked, as GitHub makes them."""
    found = []
    for heading in HEADING.findall(text_of(path)):
        name = re.sub(r"[^\w\- ]", "", re.sub(r"\[([^\]]*)\]\([^)]*\)", r"\1", heading).lower()).replace(" ", "-")
        found.append(f"{name}-{found.count(name)}" if name in found else name)
    return found


def broken(top, page):
    """The links of a page that lead nowhere."""
    for link in LINK.findall(CODE.sub("", text_of(os.path.join(top, page)))):
        target = urllib.parse.urlsplit(link)
        if target.scheme:
            continue
        path = os.path.join(top, os.path.dirname(page), urllib.parse.unquote(target.path)) if target.path else os.path.join(top, page)
        if not os.path.exists(path) or (target.fragment and path.endswith(".md") and target.fragment not in anchors(path)):
            yield link
