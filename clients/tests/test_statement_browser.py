"""The statement as HTML, in a browser: names are links, and comments, back links and the search are where they are looked for.
"""

from __future__ import annotations

import tempfile
import unittest
from pathlib import Path

from tests import test_pages
from tests.browser import Browser, needs_browser

import statement_html  # noqa: E402  (test_pages has put the folder of the tools on the path)
import statement_pages  # noqa: E402
from definitions import Failure  # noqa: E402


class Html(test_pages.SmallServer):
    """The pages of a server of a few lines."""

    def setUp(self) -> None:
        super().setUp()
        folder = tempfile.TemporaryDirectory()
        self.addCleanup(folder.cleanup)
        self.folder = Path(folder.name, "html")

    def write_pages(self) -> None:
        """Writes the pages into the test's folder."""
        statement_html.write_html(statement_pages.read(self.top), self.folder)

    def test_names_lead_where_their_imports_do(self) -> None:
        # Another definition of the same name, which nobody imports.
        self.write("law/specs/Others.antt", test_pages.WORDS)
        self.write_pages()
        text = (self.folder / "LAWS.html").read_text(encoding="utf-8")
        self.assertIn('IsLong n = <a href="PROMISE.html#low.is_word">is_word</a> n ', text)
        self.assertNotIn("#law.is_word", text)

    def test_bound_names_are_no_links(self) -> None:
        self.write("law/specs/Lengths.antt", test_pages.LENGTHS.replace("IsLong n = is_word n", "IsLong is_word = is_word"))
        self.write_pages()
        self.assertNotIn("low.is_word", (self.folder / "LAWS.html").read_text(encoding="utf-8"))

    def test_the_pages_ask_for_nothing_outside(self) -> None:
        self.write_pages()
        for path in self.folder.iterdir():
            self.assertNotIn("://", path.read_text(encoding="utf-8"), path.name)

    def test_a_link_that_leads_nowhere_is_refused(self) -> None:
        with self.assertRaisesRegex(Failure, "lead nowhere: .'PROMISE.html#low.lost'"):
            statement_html.check_links({"index": ("", '<a href="PROMISE.html#low.lost">lost</a>')})

    @needs_browser
    def test_it_is_read_in_a_browser(self) -> None:
        self.write_pages()
        browser = Browser(1000, 800)
        self.addCleanup(browser.close)
        browser.open(self.folder / "PROMISE.html")
        self.under_the_pointer(browser)
        self.back_links(browser)
        self.search(browser)
        self.light_and_dark(browser)
        self.assertEqual(browser.complaints(), [])
        self.assertEqual([it for it in browser.addresses() if not it.startswith("file:")], [])

    def under_the_pointer(self, browser: Browser) -> None:
        """A name in code shows its comment, and leads to its definition."""
        link = "[...document.querySelectorAll('pre a')].find((it) => it.textContent === 'is_word')"
        browser.run(f"{link}.scrollIntoView({{block: 'center'}})")
        x, y = browser.run(f"(() => {{ const it = {link}.getBoundingClientRect(); return [it.left + 3, it.top + 3]; }})()")
        self.assertTrue(browser.run("says.hidden"))
        browser.mouse("mouseMoved", x, y)
        browser.wait("!says.hidden")
        self.assertEqual(browser.run("says.textContent"), "whether it is a word")
        browser.run(f"{link}.click()")
        browser.wait("location.hash === '#low.is_word'")
        self.assertIn("is_word : ", browser.run("document.querySelector('section:target pre').textContent"))

    def back_links(self, browser: Browser) -> None:
        """A definition says who names it: a definition of the page, and a law of another one."""
        users = "[...document.querySelectorAll('section:target details a')].map((it) => it.getAttribute('href'))"
        self.assertEqual(browser.run(users), ["PROMISE.html#high.Tells", "LAWS.html#law.IsLong"])

    def search(self, browser: Browser) -> None:
        """The search finds a name by a part of it, and Enter leads there, to another page too."""
        browser.key("/")
        for letter in "long":
            browser.key(letter)
        names = "[...found.querySelectorAll('b')].map((it) => it.textContent)"
        self.assertEqual(browser.run(names)[:1], ["IsLong"])
        browser.key("Enter")
        browser.wait("location.href.endsWith('/LAWS.html#law.IsLong') && document.readyState === 'complete'")

    def light_and_dark(self, browser: Browser) -> None:
        """The button turns light into dark, and back."""
        paper = "getComputedStyle(document.body).backgroundColor"
        first = browser.run(paper)
        browser.run("document.getElementById('theme').click()")
        self.assertNotEqual(browser.run(paper), first)
        browser.run("document.getElementById('theme').click()")
        self.assertEqual(browser.run(paper), first)


if __name__ == "__main__":
    unittest.main()
