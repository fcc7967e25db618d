"""Tests the file of measured figures: what pages quote of it, what a script of bench writes into it, and which are older."""
import os
import shutil
import subprocess
import tempfile
import unittest

from zygos_tools import figures

GROUPS = {"speed": {"by": "bench/run speed --note", "date": "2026-01-02", "program": "", "measures": ["code"],
                    "values": {"one": 2.06, "many": 6202},
                    "quotes": [{"page": "page.md", "text": "one takes {one:.1f} s ({date})"},
                               {"page": "page.md", "text": "{many:,.0f} instructions"}]}}
PAGE = "On a machine one takes\n2.1 s (2026-01-02), in 6,202\ninstructions.\n"


class Figures(unittest.TestCase):
    """A repository with a page, a file of figures, and a file that they measure."""

    def setUp(self):
        self.top = tempfile.mkdtemp()
        self.addCleanup(shutil.rmtree, self.top)
        os.mkdir(f"{self.top}/bench")
        self.write("page.md", PAGE)
        self.write("code", "first")
        self.git("init", "-q")
        self.commit()
        groups = {name: {**group, "program": figures.git(self.top, "rev-parse", "HEAD")} for name, group in GROUPS.items()}
        figures.write(groups, self.top)

    def write(self, name, text):
        with open(f"{self.top}/{name}", "w", encoding="utf-8") as file:
            file.write(text)

    def git(self, *words):
        subprocess.run(["git", "-C", self.top, "-c", "user.name=a", "-c", "user.email=a@b", *words], check=True)

    def commit(self):
        self.git("add", "-A")
        self.git("commit", "-qm", "a change")

    def test_a_page_that_says_what_the_file_has_is_right(self):
        self.assertEqual([], list(figures.misquoted(self.top)))

    def test_a_page_that_differs_is_found(self):
        self.write("page.md", PAGE.replace("2.1", "2.2"))
        self.assertEqual([("page.md", "speed", "one takes 2.1 s (2026-01-02)")], list(figures.misquoted(self.top)))

    def test_a_figure_that_is_noted_has_to_be_quoted(self):
        figures.note("speed", "again", {"one": 3.14}, self.top)
        group = figures.read(self.top)["speed"]
        self.assertEqual(({"one": 3.14, "many": 6202}, "again", 2), (group["values"], group["by"], len(group["quotes"])))
        self.assertEqual([("page.md", "speed", f"one takes 3.1 s ({group['date']})")], list(figures.misquoted(self.top)))

    def test_a_new_group_has_no_quotes(self):
        figures.note("memory", "bench/run memory --note", {"least": 1}, self.top)
        self.assertEqual([], figures.read(self.top)["memory"]["quotes"])

    def test_a_program_with_changes_is_marked(self):
        self.write("code", "second")
        figures.note("speed", "again", {}, self.top)
        self.assertTrue(figures.read(self.top)["speed"]["program"].endswith("+"))

    def test_figures_are_older_once_what_they_measure_has_changed(self):
        self.write("page.md", PAGE + "More.\n")
        self.commit()
        self.assertEqual([], list(figures.older(self.top)))
        self.write("code", "second")
        self.commit()
        self.assertEqual([("speed", 1)], [(name, len(commits)) for name, _, commits in figures.older(self.top)])


if __name__ == "__main__":
    unittest.main()
