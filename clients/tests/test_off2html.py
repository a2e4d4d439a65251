"""The tool off2html: what its page has, to the last digit, and what it refuses. `test_off2html_browser` opens pages."""

import json
import os
import re
import signal
import subprocess
import time
import unittest
from collections import Counter
from fractions import Fraction
from html.parser import HTMLParser

from scadserve.tools import off2html
from scadserve.solid.closing import close, open_edges, ways
from scadserve.files import write_file
from scadserve.solid.fouroff import Boundary
from tests import tool_case
from tests.calls import TOP
from tests.solids import CUT_CUBE, EMPTY, box, comb, gallery, off, split_box

# Elements that have no end.
VOID = ("meta", "link")


class Page(HTMLParser):
    """A page that is read: its elements in order, and the texts in them. Raises AssertionError where one isn't ended."""

    def __init__(self, text):
        super().__init__()
        self.elements = []
        self.texts = Counter()
        self.open = []
        self.declared = None
        self.feed(text)
        self.close()
        assert not self.open, self.open

    def handle_decl(self, decl):
        self.declared = decl

    def handle_starttag(self, tag, attrs):
        assert len(dict(attrs)) == len(attrs), attrs
        self.elements.append((tag, dict(attrs)))
        if tag not in VOID:
            self.open.append((tag, dict(attrs).get("id")))

    def handle_endtag(self, tag):
        assert self.open.pop()[0] == tag, tag

    def handle_data(self, data):
        if self.open:
            tag, name = self.open[-1]
            self.texts[tag] = (self.texts[tag] or "") + data
            if name:
                self.texts[name] = (self.texts[name] or "") + data

    def all(self, tag):
        """The attributes of all elements of a kind."""
        return [attributes for found, attributes in self.elements if found == tag]


def loops(plane):
    """The loops of a plane, each from its least corner on."""
    return sorted(loop[loop.index(min(loop)) :] + loop[: loop.index(min(loop))] for loop in plane["loops"])


def kept(name):
    """The page of a part of the gallery."""
    with open(f"{TOP}/gallery/{name}.html", encoding="utf-8") as file:
        return file.read()


class Case(tool_case.Case):
    tool = off2html

    def page(self, data, *words, name="a.4off"):
        """The page of a solid, and what it draws."""
        self.assertEqual(self.call(*words, "-o", self.path("a.html"), self.file(name, data)), (0, ""))
        self.text = self.bytes_of("a.html").decode("utf-8")
        page = Page(self.text)
        return page, json.loads(page.texts["solid"])

    def facts(self):
        return dict(re.findall("<div><dt>([A-Z][a-z]+)</dt><dd>(.*)</dd></div>", self.text))


class Drawn(Case):
    def test_corners_are_those_of_the_text_to_the_last_digit(self):
        _, drawn = self.page(CUT_CUBE)
        self.assertEqual(sorted(drawn["corners"]), sorted(CUT_CUBE.decode().split("\n")[2:11]))
        low, high = -Fraction(10**26, 3**50), Fraction(10**30 + 1, 10**30)
        _, drawn = self.page(off(box((low, 0, 0), (high, 1, 1))))
        x = {Fraction(int(corner.split()[0]), int(corner.split()[3])) for corner in drawn["corners"]}
        self.assertEqual(x, {low, high})

    def test_planes_are_those_of_the_text(self):
        _, drawn = self.page(CUT_CUBE)
        names = {corner: at for at, corner in enumerate(CUT_CUBE.decode().split("\n")[2:11])}
        numbers = [names[corner] for corner in drawn["corners"]]
        planes = {plane["ahead"]: [[numbers[it] for it in loop] for loop in plane["loops"]] for plane in drawn["planes"]}
        # The cut goes through (0, 1, 1), (1, 1/3, 1) and (1, 1, 1/3), which is 2x + 3y + 3z = 6.
        aheads = ["0 0 -1", "0 -1 0", "-1 0 0", "2 3 3", "1 0 0", "0 1 0", "0 0 1"]
        self.assertEqual(sorted(planes), sorted(aheads))
        for ahead, line in zip(aheads, CUT_CUBE.decode().split("\n")[11:]):
            face = list(map(int, line.split()[1:]))
            self.assertEqual(loops({"loops": planes[ahead]}), loops({"loops": [face]}))

    def test_faces_of_one_plane_are_one_loop_without_the_corners_between_them(self):
        _, drawn = self.page(off(split_box()))
        self.assertEqual(len(drawn["corners"]), 8)
        self.assertEqual([len(loop) for plane in drawn["planes"] for loop in plane["loops"]], [4] * 6)

    def test_a_hole_is_a_loop_of_its_own(self):
        drawn = json.loads(Page(kept("menger")).texts["solid"])
        ups = [plane for plane in drawn["planes"] if plane["ahead"] == "0 0 1"]
        [top] = [plane for plane in ups if drawn["corners"][plane["loops"][0][0]].split()[2] == "9"]
        # A square with a hole of 3, and eight of 1.
        self.assertEqual([len(loop) for loop in top["loops"]], [4] * 10)

    def test_the_loops_of_the_gallery_are_closed(self):
        for name in gallery():
            with self.subTest(name):
                drawn = json.loads(Page(kept(name)).texts["solid"])
                corners = [tuple(map(int, corner.split())) for corner in drawn["corners"]]
                faces = [tuple(loop) for plane in drawn["planes"] for loop in plane["loops"]]
                self.assertEqual(open_edges(ways(close(Boundary(corners, faces, [])))), 0)

    def test_the_view(self):
        self.assertEqual(self.page(CUT_CUBE)[1]["view"], [30, 30])
        self.assertEqual(self.page(CUT_CUBE, "--view", "-45", "12.5")[1]["view"], [-45, 12.5])

    def test_facts(self):
        self.page(CUT_CUBE)
        # A tetrahedron with legs of 1, 2/3 and 2/3 is cut off: 1 - 2/27.
        self.assertEqual(self.facts(), {"Faces": "7", "Box": "1 x 1 x 1, (0, 0, 0) to (1, 1, 1)", "Volume": "25/27"})
        _, drawn = self.page(off(box((-1, 0, 2), (3, 5, 4))), "--unit", "1/10")
        expected = {
            "Faces": "6", "Unit": "1/10 mm", "Box": "0.4 x 0.5 x 0.2, (-0.1, 0, 0.2) to (0.3, 0.5, 0.4)", "Volume": "0.04"
        }
        self.assertEqual((self.facts(), drawn["unit"]), (expected, "1/10"))


class Form(Case):
    def test_it_is_well_formed(self):
        page, _ = self.page(CUT_CUBE)
        self.assertEqual(page.declared, "DOCTYPE html")
        self.assertEqual((page.all("html")[0]["lang"], page.texts["title"], page.texts["h1"]), ("en", "a", "a"))
        names = [attributes["id"] for _, attributes in page.elements if "id" in attributes]
        self.assertEqual(len(set(names)), len(names))
        [view] = page.all("canvas")
        self.assertTrue(view["aria-label"] and view["tabindex"] == "0")
        self.assertLessEqual(set(view["aria-describedby"].split()), set(names))
        self.assertTrue(all(button["type"] == "button" for button in page.all("button")))

    def test_it_asks_no_network(self):
        page, _ = self.page(CUT_CUBE)
        self.assertIsNone(
            re.search(r"https?:|wss?:|url\(|@import|\bfetch\(|XMLHttp|WebSocket|sendBeacon|importScripts", self.text)
        )
        self.assertEqual([it for _, it in page.elements if "src" in it], [])
        self.assertEqual(page.all("link"), [{"rel": "icon", "href": "data:,"}])
        [policy] = [it["content"] for it in page.all("meta") if it.get("http-equiv") == "Content-Security-Policy"]
        self.assertTrue(policy.startswith("default-src 'none'; "))

    def test_names_in_other_alphabets(self):
        for name, title in (("Gehäuse <b>&amp;", "Gehäuse <b>&amp;"), ("部品", "部品"), ("$solid", "$solid")):
            page, _ = self.page(CUT_CUBE, name=f"{name}.4off")
            self.assertEqual((page.texts["title"], page.texts["h1"]), (title, title))

    def test_the_same_solid_has_the_same_page_and_another_one_another_mark(self):
        marks = []
        for data in (CUT_CUBE, CUT_CUBE, off(box((0, 0, 0), (1, 1, 1)))):
            page, _ = self.page(data)
            marks.append((page.all("html")[0]["data-mark"], self.text))
        self.assertEqual(marks[0], marks[1])
        self.assertNotEqual(marks[0][0], marks[2][0])

    def test_pages_are_small(self):
        self.page(CUT_CUBE)
        own = len(self.text)
        self.assertLess(own, 40000)
        for name, data in gallery().items():
            self.assertLess(len(kept(name)), own + 2 * len(data))

    def test_many_faces(self):
        _, drawn = self.page(off(comb(833)))
        self.assertEqual((self.facts()["Faces"], self.facts()["Volume"]), ("5003", str(833 * 2 * 3 + 833 * 2 * 3)))
        # The top of the bar is in 833 pieces, and so are the tops of the teeth.
        self.assertEqual(Counter(len(plane["loops"]) for plane in drawn["planes"] if plane["ahead"] == "0 0 1"), {833: 2})


class Tool(Case):
    def test_faults(self):
        cube = box((0, 0, 0), (1, 1, 1))
        good = self.file("a.4off", off(cube))
        for status, words, said in (
            (1, [self.file("e.4off", EMPTY)], "e.4off: error: the solid is empty, so nothing is written\n"),
            (2, [self.file("m.4off", b"4OFF\n")], "m.4off:2: error: the second line is not 'VERTICES FACES 0'\n"),
            (2, [self.file("o.4off", off(cube[1:]))], "o.4off: error: not closed: 4 edges"),
            (2, [self.file("i.4off", off([face[::-1] for face in cube]))], "i.4off: error: its faces look inward"),
            (2, [self.file("s.scad", b"cube(1);\n")], "s.scad:1: error: the first line is not '4OFF': scad2off makes"),
            (2, [self.path("none")], "off2html: cannot open none: No such file"),
            (2, ["-o", self.path("none/a.html"), good], "off2html: cannot write none/a.html: No such file"),
            (2, ["-o", good, good], "off2html: a.4off would be a page, but has another ending"),
            (2, ["-o", self.path("a.SVG"), good], "off2html: a.SVG would be a page, but has another ending"),
            (2, ["--view", "x", "1", good], "is not an angle"),
            (2, ["--unit", "0", good], "is not a number above 0"),
            (2, ["--watch", good], "off2html: --watch needs a file to read again and a file to write"),
            (2, ["--watch", "-o", self.path("a.html")], "off2html: --watch needs a file to read again and a file to write"),
            (2, ["--wat", good], "off2html: "),
        ):
            self.assert_fault(status, words, said)

    def test_a_fault_leaves_no_page_of_an_earlier_solid(self):
        self.page(CUT_CUBE)
        status, said = self.call(self.file("a.4off", b"4OFF\n"), "-o", self.path("a.html"))
        self.assertEqual((status, said.count("\n"), os.path.exists(self.path("a.html"))), (2, 2, False), said)
        other = self.file("other.html", b"<!DOCTYPE html>\nMine")
        status, said = self.call(self.path("a.4off"), "-o", other)
        self.assertEqual((status, said.count("\n"), self.bytes_of("other.html")), (2, 2, b"<!DOCTYPE html>\nMine"), said)

    def test_through_a_link_from_a_pipe(self):
        link = self.path("link")
        os.symlink(TOP + "/bin/off2html", link)
        done = subprocess.run([link, "--view", "-30", "20"], input=CUT_CUBE, capture_output=True, check=True)
        self.assertTrue(done.stdout.startswith(off2html.BEGINS) and done.stdout.endswith(b"</html>\n"))
        self.assertEqual((Page(done.stdout.decode()).texts["title"], done.stderr), ("solid", b""))


class Watching(Case):
    PATIENCE = 100

    def wait(self, *parts):
        """Waits until the page has all these parts."""
        end = time.monotonic() + self.PATIENCE
        while time.monotonic() < end:
            if os.path.exists(self.path("w.html")) and all(part.encode() in self.bytes_of("w.html") for part in parts):
                return
            time.sleep(0.05)
        self.fail(f"the page never had {parts}")

    def test_the_page_follows_the_file(self):
        file = self.file("w.4off", off(box((0, 0, 0), (2, 3, 4))))
        words = [TOP + "/bin/off2html", "--watch", file, "-o", self.path("w.html")]
        tool = subprocess.Popen(words, stderr=subprocess.PIPE)
        self.addCleanup(tool.kill)
        self.wait('data-watch="yes"', "<dd>24</dd>")
        write_file(file, off(box((0, 0, 0), (2, 3, 5))))
        self.wait("<dd>30</dd>")
        write_file(file, b"4OFF\n")
        self.wait("<dd>30</dd>", 'role="alert">', "w.4off:2: error: the second line is not", "This is the previous solid.")
        write_file(file, off(box((0, 0, 0), (2, 3, 6))))
        self.wait("<dd>36</dd>")
        self.assertNotIn(b"previous solid", self.bytes_of("w.html"))
        os.unlink(file)
        self.wait("<dd>36</dd>", "No such file or directory. This is the previous solid.")
        tool.send_signal(signal.SIGINT)
        said = tool.communicate()[1].decode().replace(self.folder + os.sep, "").splitlines()
        self.assertEqual(tool.returncode, 130)
        self.assertRegex(said[0], r"\Aw\.4off:2: error: the second line .*; w\.html shows the previous solid\Z")
        self.assertEqual(
            said[1:], ["off2html: cannot open w.4off: No such file or directory; w.html shows the previous solid"]
        )

    def test_it_begins_with_a_solid(self):
        self.assert_fault(
            2, ["--watch", self.path("none"), "-o", self.path("w.html")], "off2html: cannot open none: No such file"
        )


if __name__ == "__main__":
    unittest.main()
