"""Measured figures: bench/figures.json, which the scripts of bench write with --note, and which pages quote.

The file has groups by name. A group has the command that measured it (`by`), the day (`date`), the commit of the program
(`program`), the paths of what it measures (`measures`), its figures by name (`values`), and the texts of pages that quote
it (`quotes`). In a text `{name}` is a figure, `{name:.1f}` rounds it, and `{date}` and `{program}` are the day and the
commit.
"""
import json
import os
import subprocess
import time

from zygos_tools.repository import TOP

FILE = "bench/figures.json"
# what a group measures if it does not say so
PROGRAM = ["crates/*/src/*"]


def read(top=TOP):
    """The groups of the file, by name."""
    with open(os.path.join(top, FILE), encoding="utf-8") as file:
        return json.load(file)


def write(groups, top=TOP):
    with open(os.path.join(top, FILE), "w", encoding="utf-8") as file:
        json.dump(groups, file, indent=1, ensure_ascii=False, sort_keys=True)
        file.write("\n")


def git(top, *words):
    """What git prints; nothing if it fails."""
    return subprocess.run(["git", "-C", top, *words], capture_output=True, text=True, check=False).stdout.strip()


def note(name, by, values, top=TOP):
    """Writes the figures of a group, with this day and commit; its quotes stay."""
    groups = read(top)
    group = groups.setdefault(name, {"quotes": []})
    measured = group.get("measures", PROGRAM)
    commit = git(top, "rev-parse", "--short=8", "HEAD") + "+" * bool(git(top, "status", "--porcelain", "--", *measured))
    group.update(by=by, date=time.strftime("%Y-%m-%d"), program=commit)
    group["values"] = {**group.get("values", {}), **values}
    write(groups, top)


def plain(text):
    """A text with one space for each run of white space."""
    return " ".join(text.split())


def misquoted(top=TOP):
    """The texts that pages should have by the file and do not: the page, the group and the text."""
    for name, group in read(top).items():
        for quote in group["quotes"]:
            text = plain(quote["text"].format(date=group["date"], program=group["program"], **group["values"]))
            with open(os.path.join(top, quote["page"]), encoding="utf-8") as page:
                if text not in plain(page.read()):
                    yield quote["page"], name, text


def older(top=TOP):
    """The groups that were measured before the last change of what they measure, and the commits since then."""
    for name, group in read(top).items():
        measured = group.get("measures", PROGRAM)
        since = git(top, "log", "--format=%h", f"{group['program'].rstrip('+')}..HEAD", "--", *measured).split()
        if since:
            yield name, group, since
