"""The page of scadlive in a browser, with CodeMirror and with a text area, before a stand-in for the server, whose solid is a
box with a side of 1 or of the last `w=N` in the text."""

from __future__ import annotations

import json
import os
import shutil
import tempfile
import time
import unittest
from fractions import Fraction
from pathlib import Path
from typing import Any, Tuple

from scadserve.live import serving
from scadserve.solid import closing, fouroff, measures
from scadserve.view.page import planes
from tests import live_case
from tests.browser import Browser, needs_browser
from tests.calls import TOP
from tests.live_case import PATIENCE
from tests.solids import CUT_CUBE, box, off
from tests.page_case import PAINTED, RESTS

FIRST = (
    "/* [Size] */\n// how wide it is\nw = 2; // [1:9]\nhollow = false;\nlook = \"plain\"; // [plain, round:a round one]\nat = "
    "[1, 2];\n"
)
# The browser's code of a key that is held.
CONTROL = 2
Point = Tuple[Fraction, Fraction, Fraction]


class Page(live_case.Case):
    """A page of a server."""

    query = ""

    @classmethod
    def setUpClass(cls) -> None:
        super().setUpClass()
        cls.browser = Browser(1100, 700)
        cls.addClassCleanup(cls.browser.close)

    def setUp(self) -> None:
        for it in self.folder.iterdir():
            it.unlink()
        (self.folder / "first.scad").write_text(FIRST)
        (self.folder / "second.scad").write_text("w = 5;\n")
        self.browser.resize(1100, 700)
        self.show()

    def show(self, name: str = "first.scad") -> None:
        """Opens the page anew, and waits for its first answer."""
        self.browser.visit("about:blank")
        self.browser.visit(f"{self.live.address}{self.query}#{name}")
        self.browser.wait("document.documentElement.dataset.shown")

    def told(self, name: str) -> str:
        return str(self.browser.run(f"document.getElementById('{name}').innerText"))

    def click(self, selector: str) -> None:
        self.browser.run(f"document.querySelector({json.dumps(selector)}).click()")

    def until(self, what: str) -> None:
        """Waits until an expression in the page is true."""
        self.browser.wait(what)

    def until_side(self, side: int) -> None:
        self.until(f"document.getElementById('box').innerText === '{side} x {side} x {side}'")

    def focus(self) -> None:
        self.browser.run(
            "(document.querySelector('.CodeMirror textarea') ?? document.querySelector('.plain textarea')).focus()"
        )

    def text(self) -> str:
        code, plain = "document.querySelector('.CodeMirror')", "document.querySelector('.plain textarea')"
        return str(self.browser.run(f"{code}?.CodeMirror.getValue() ?? {plain}.value"))

    def cursor(self) -> list[int]:
        """The line and the column of the cursor, from 0."""
        plain = (
            "(() => { const area = document.querySelector('.plain textarea'); const before = area.value.slice(0, "
            "area.selectionStart).split('\\n'); return [before.length - 1, before.at(-1).length]; })()"
        )
        code = (
            "(() => { const { line, ch } = document.querySelector('.CodeMirror').CodeMirror.getCursor(); return [line, ch]; "
            "})()"
        )
        return list(self.browser.run(f"document.querySelector('.CodeMirror') ? {code} : {plain}"))

    def type(self, text: str) -> None:
        """Types a text in place of the whole one."""
        self.focus()
        self.control("a", ["selectAll"])
        self.browser.ask("Input.insertText", text=text)

    def control(self, key: str, commands: list[str] | None = None) -> None:
        values = {"key": key, "code": f"Key{key.upper()}", "windowsVirtualKeyCode": ord(key.upper()), "modifiers": CONTROL}
        self.browser.ask("Input.dispatchKeyEvent", type="keyDown", **values, **({"commands": commands} if commands else {}))
        self.browser.ask("Input.dispatchKeyEvent", type="keyUp", **values)

    def press(self, key: str, code: int) -> None:
        for kind in ("rawKeyDown", "keyUp"):
            self.browser.ask("Input.dispatchKeyEvent", type=kind, key=key, code=key, windowsVirtualKeyCode=code)

    def saved(self, name: str = "first.scad") -> str:
        return (self.folder / name).read_text()

    def until_saved(self, text: str, name: str = "first.scad") -> None:
        end = time.monotonic() + PATIENCE
        while not (self.folder / name).exists() or self.saved(name) != text:
            self.assertLess(time.monotonic(), end, name)
            time.sleep(0.02)

    def complaints(self) -> list[Any]:
        """What went wrong in the page; an answer that tells a fault of the text is no such thing."""
        found = self.browser.complaints()
        return [it for it in found if it.get("entry", {}).get("source") not in ("rendering", "network")]


class Editing:
    """What holds in each editor."""

    def test_what_is_typed_is_shown_and_the_view_stays(self: Any) -> None:
        self.until_side(2)
        self.browser.run(RESTS)
        before = self.browser.run(PAINTED)
        self.type("w = 1;")
        self.until_side(1)
        self.assertEqual((self.told("volume"), self.told("count")), ("1", "6"))
        self.browser.run(RESTS)
        after = self.browser.run(PAINTED)
        # (the same place, and half as large)
        self.assertAlmostEqual(after["wide"], before["wide"] / 2, delta=3)
        self.assertAlmostEqual(after["high"], before["high"] / 2, delta=3)
        self.type("// unit: 1/10\nw = 5;")
        self.until("document.getElementById('box').innerText === '0.5 x 0.5 x 0.5 mm'")
        self.assertEqual(self.told("volume"), "0.125 mm³")
        self.assertRegex(self.told("time"), r"\A[\d.]+ ms\Z")
        self.assertEqual(self.complaints(), [])
        self.assertEqual({it for it in self.browser.addresses() if not it.startswith((self.live.address, "data:,"))}, set())

    def test_at_a_fault_the_solid_stays_and_a_click_goes_to_its_place(self: Any) -> None:
        self.type('// a\nw = 2;\nx = "ä" + 2.5;')
        self.until("document.documentElement.dataset.faults === 'NotWhole'")
        said = self.told("faults")
        self.assertIn("NotWhole 2.5 is", said)
        self.assertIn("first.scad:3:12", said)
        self.assertIn("cure: ", said)
        self.assertEqual(self.browser.run("getComputedStyle(view).opacity"), "0.4")
        self.assertTrue(self.browser.run("document.querySelector('#old').offsetHeight > 0"))
        self.assertEqual(self.told("box"), "2 x 2 x 2")
        marked = "document.querySelector('.marked.fault')?.textContent ?? document.querySelector('.numbers .fault').textContent"
        self.assertIn(self.browser.run(marked), ("2.5", "3"))
        self.click("#faults button")
        self.assertEqual(self.cursor(), [2, 10])
        self.type("w = 3;")
        self.until_side(3)
        self.until("document.getElementById('faults').childElementCount === 0")
        self.assertFalse(self.browser.run("document.querySelector('.marked.fault, .numbers .fault') !== null"))
        self.assertEqual(self.browser.run("getComputedStyle(view).opacity"), "1")

    def test_what_openscad_takes_for_another_solid_is_noted_and_a_click_goes_to_its_place(self: Any) -> None:
        self.type("// two solids\nw = 3;\nlinear_extrude(4, true) square(2);")
        self.until_side(3)
        self.until("document.querySelector('#faults .note') !== null")
        said = self.told("faults")
        self.assertIn("OpenSCAD takes this for another solid: here the second argument without a name of linear_extrude", said)
        self.assertIn("first.scad:3:19", said)
        self.assertFalse(self.browser.run("document.getElementById('shown').classList.contains('is-old')"))
        marked = "document.querySelector('.marked.note')?.textContent ?? document.querySelector('.numbers .note').textContent"
        self.assertIn(self.browser.run(marked), ("true", "3"))
        self.click("#faults button")
        self.assertEqual(self.cursor(), [2, 18])
        self.type("w = 4;")
        self.until_side(4)
        self.until("document.getElementById('faults').childElementCount === 0")
        self.assertEqual(self.complaints(), [])

    def test_parameters_are_fields_whose_values_go_into_the_text(self: Any) -> None:
        kinds = "[...document.querySelectorAll('#fields input, #fields select')].map((it) => it.type)"
        self.assertEqual(self.browser.run(kinds), ["range", "number", "checkbox", "select-one", "number", "number"])
        self.assertIn("how wide it is", self.told("fields"))
        self.browser.run("(() => { const it = document.querySelector('#fields input[type=range]'); it.value = 7; "
                         "it.dispatchEvent(new Event('input')); })()")
        self.until_side(7)
        self.assertEqual(self.text(), FIRST)
        self.click("[data-name=w] button")
        self.until("document.getElementById('state').innerText === 'changed'")
        self.assertEqual(self.text(), FIRST.replace("w = 2", "w = 7"))
        self.browser.run("(() => { const it = document.querySelector('#fields select'); it.value = '\"round\"'; "
                         "it.dispatchEvent(new Event('change')); })()")
        self.click("#write-all")
        self.assertEqual(self.text(), FIRST.replace("w = 2", "w = 7").replace('"plain"', '"round"'))
        self.until_side(7)

    def test_it_is_saved_by_a_key_and_not_over_another_text(self: Any) -> None:
        self.type("w = 4;")
        self.until_side(4)
        self.control("s")
        self.until_saved("w = 4;")
        self.until("document.getElementById('state').innerText === 'saved'")
        self.type("w = 6;")
        (self.folder / "first.scad").write_text("w = 8;")
        self.until("!document.getElementById('changed').hidden")
        self.assertIn("first.scad has another text on disk now.", self.told("changed"))
        self.control("s")
        self.until("document.getElementById('conflict').open")
        self.assertEqual(self.saved(), "w = 8;")
        self.click("#conflict button[value=theirs]")
        self.until_side(8)
        self.assertEqual(self.text(), "w = 8;")
        self.type("w = 9;")
        (self.folder / "first.scad").write_text("w = 1;")
        self.until("!document.getElementById('changed').hidden")
        self.control("s")
        self.until("document.getElementById('conflict').open")
        self.click("#conflict button[value=mine]")
        self.until_saved("w = 9;")

    def test_a_change_on_disk_shows_by_itself(self: Any) -> None:
        self.until_side(2)
        (self.folder / "first.scad").write_text("w = 3;")
        self.until_side(3)
        self.assertEqual(self.text(), "w = 3;")
        self.type("include <second.scad>")
        self.until_side(5)
        (self.folder / "second.scad").write_text("w = 6;")
        self.until_side(6)

    def test_line_ends_of_other_systems_are_kept(self: Any) -> None:
        (self.folder / "second.scad").write_bytes(b"w = 5;\r\n// a\r\n")
        self.show("second.scad")
        self.until_side(5)
        self.focus()
        self.control("a", ["selectAll"])
        self.browser.ask("Input.insertText", text="w = 7;\n// b\n")
        self.until_side(7)
        self.control("s")
        end = time.monotonic() + PATIENCE
        while (self.folder / "second.scad").read_bytes() != b"w = 7;\r\n// b\r\n":
            self.assertLess(time.monotonic(), end, (self.folder / "second.scad").read_bytes())
            time.sleep(0.02)

    def test_keys_alone_suffice(self: Any) -> None:
        self.focus()
        self.browser.key("e")
        self.assertEqual(self.browser.run("document.querySelector('[data-key=e]').ariaPressed"), "true")
        parts = []
        for _ in range(4):
            self.press("F6", 117)
            parts.append(
                self.browser.run(
                    "document.activeElement.closest('#editor, #parameters, #shown, #faults, header').id || 'header'"
                )
            )
        self.assertEqual(parts, ["parameters", "shown", "header", "editor"])
        self.press("Tab", 9)
        self.assertFalse(self.browser.run("document.getElementById('editor').contains(document.activeElement)"))
        self.browser.run("document.getElementById('view').focus()")
        self.browser.key("e")
        self.assertEqual(self.browser.run("document.querySelector('[data-key=e]').ariaPressed"), "false")
        self.type("a = 1;\nx = 2.5;")
        self.until("document.documentElement.dataset.faults === 'NotWhole'")
        self.browser.run("document.getElementById('view').focus()")
        self.press("F8", 119)
        self.assertEqual(self.cursor(), [1, 4])

    def test_all_that_can_be_reached_has_a_name(self: Any) -> None:
        self.type(FIRST + "x = 2.5;")
        self.until("document.documentElement.dataset.faults === 'NotWhole'")
        self.browser.ask("Accessibility.enable")
        nodes = self.browser.ask("Accessibility.getFullAXTree")["nodes"]
        reached = [
            it for it in nodes if any(p["name"] == "focusable" and p["value"].get("value") for p in it.get("properties", []))
        ]
        roles = {it["role"]["value"] for it in reached}
        self.assertLessEqual(
            {"button", "combobox", "checkbox", "slider", "spinbutton", "textbox", "application", "separator"}, roles
        )
        # (what scrolls can be reached, too, and is named by the section around it)
        nameless = {it["role"]["value"] for it in reached if not it.get("name", {}).get("value")}
        self.assertLessEqual(nameless, {"generic"})

    def test_narrow_screens_show_all_of_it(self: Any) -> None:
        self.browser.resize(380, 800)
        self.browser.run(RESTS)
        self.assertLessEqual(self.browser.run("document.scrollingElement.scrollWidth"), 380)
        self.assertGreater(self.browser.run("view.clientHeight"), 200)
        self.assertGreater(self.browser.run("document.getElementById('editor').clientHeight"), 200)
        self.assertGreater(self.browser.run(PAINTED)["wide"], 100)


@needs_browser
@unittest.skipUnless(serving.CODEMIRROR.is_dir(), "needs libjs-codemirror")
class WithCodeMirror(Editing, Page):
    def test_it_is_codemirror(self) -> None:
        self.assertTrue(self.browser.run("document.querySelector('.CodeMirror') !== null"))
        self.assertEqual(self.browser.run("document.querySelector('.cm-comment').textContent"), "/* [Size] */")

    def test_dark_and_light(self) -> None:
        bright = []
        for scheme in ("light", "dark"):
            self.browser.ask("Emulation.setEmulatedMedia", features=[{"name": "prefers-color-scheme", "value": scheme}])
            self.show()
            for selector in ("body", ".CodeMirror"):
                color = self.browser.run(f"getComputedStyle(document.querySelector('{selector}')).backgroundColor")
                bright.append(sum(map(int, color[4:-1].split(","))) > 380)
        self.browser.ask("Emulation.setEmulatedMedia", features=[])
        self.assertEqual(bright, [True, True, False, False])
        self.show()
        self.click("[data-key=d]")
        self.until("getComputedStyle(document.body).backgroundColor === 'rgb(22, 25, 29)'")

    def test_files_are_chosen_and_made(self) -> None:
        self.assertEqual(self.told("file").split(), ["first.scad", "second.scad"])
        self.browser.run("(() => { const it = document.getElementById('file'); it.value = 'second.scad'; it.dispatchEvent(new "
                         "Event('change')); })()")
        self.until_side(5)
        self.assertEqual((self.text(), self.browser.run("location.hash")), ("w = 5;\n", "#second.scad"))
        self.click("#new")
        self.until("document.getElementById('naming').open")
        self.browser.run("document.getElementById('name').value = 'third'")
        self.click("#naming-save")
        self.until_saved("w = 5;\n", "third.scad")
        self.until("document.getElementById('file').value === 'third.scad'")

    def test_a_fault_in_an_included_file_opens_that_file(self) -> None:
        (self.folder / "second.scad").write_text("w = 5;\nx = 2.5;\n")
        self.control("s")
        self.type("include <second.scad>\n")
        self.until("document.documentElement.dataset.faults === 'NotWhole'")
        self.control("s")
        self.until_saved("include <second.scad>\n")
        self.until("document.getElementById('state').innerText === 'saved'")
        self.click("#faults button")
        self.until("document.getElementById('file').value === 'second.scad'")
        self.until("document.querySelector('.CodeMirror').CodeMirror.getCursor().line === 1")
        self.assertEqual(self.cursor(), [1, 4])

    def test_a_file_is_downloaded(self) -> None:
        folder = tempfile.mkdtemp()
        self.addCleanup(shutil.rmtree, folder, True)
        self.browser.ask("Page.setDownloadBehavior", behavior="allow", downloadPath=folder)
        for form, name, begins in (
            ("stl", "first.stl", b"solid first\n"), ("3mf", "first.3mf", b"PK"), ("html", "first.html", b"<!DOCTYPE html>")
        ):
            self.browser.run(f"document.getElementById('format').value = '{form}'")
            self.click("#download")
            end = time.monotonic() + PATIENCE
            while not Path(folder, name).exists() or not Path(folder, name).read_bytes().startswith(begins):
                self.assertLess(time.monotonic(), end, os.listdir(folder))
                time.sleep(0.05)

    def test_text_of_a_source_and_of_names_is_shown_as_text(self) -> None:
        name = "<img src=x onerror=alert(1)>.scad"
        (self.folder / name).write_text("/* [<b id=bad>] */\n// <b id=bad>\nw = 2; // [1:9]\n")
        self.show("first.scad")
        self.until("document.getElementById('file').options.length === 3")
        self.browser.run(f"(() => {{ const it = document.getElementById('file'); it.value = {json.dumps(name)}; "
                         f"it.dispatchEvent(new Event('change')); }})()")
        self.until("document.title.includes('onerror')")
        self.type('assert(false, "<b id=bad>");\n<b id=bad>2.5')
        self.until("document.documentElement.dataset.faults === 'NotWhole'")
        self.assertFalse(self.browser.run("document.getElementById('bad') !== null || document.querySelector('img') !== null"))
        self.assertEqual(self.complaints(), [])


@needs_browser
class WithATextArea(Editing, Page):
    query = "?plain"

    def test_lines_have_numbers(self) -> None:
        self.assertEqual(self.browser.run("document.querySelectorAll('.numbers > div').length"), 7)
        self.assertFalse(self.browser.run("document.querySelector('.CodeMirror') !== null"))


def point(text: str) -> Point:
    """The point of a corner "X Y Z W"."""
    x, y, z, w = map(int, text.split())
    return Fraction(x, w), Fraction(y, w), Fraction(z, w)


def cut(start: Point, end: Point, corners: set[Point]) -> list[tuple[Point, Point]]:
    """The parts of a way between the corners that lie inside it."""
    along = [b - a for a, b in zip(start, end)]
    axis = next(it for it in range(3) if along[it])
    inside = []
    for corner in corners:
        part = (corner[axis] - start[axis]) / along[axis]
        if 0 < part < 1 and all(a + part * d == c for a, d, c in zip(start, along, corner)):
            inside.append((part, corner))
    places = [start, *(it for _, it in sorted(inside)), end]
    return list(zip(places, places[1:]))


def ways_on_planes(drawn: dict[str, Any]) -> dict[tuple[Any, ...], list[tuple[Point, Point]]]:
    """The ways of the loops on each plane."""
    places = [point(it) for it in drawn["corners"]]
    found: dict[tuple[Any, ...], list[tuple[Point, Point]]] = {}
    for plane in drawn["planes"]:
        ahead = [int(it) for it in plane["ahead"].split()]
        off = sum(a * b for a, b in zip(ahead, places[plane["loops"][0][0]]))
        ways = [(places[p], places[q]) for loop in plane["loops"] for p, q in zip(loop, loop[1:] + loop[:1])]
        found.setdefault((*ahead, off), []).extend(ways)
    return found


@needs_browser
class Solids(live_case.Case):
    """What the page finds in a 4OFF text is what pages of off2html show of it."""

    @classmethod
    def setUpClass(cls) -> None:
        super().setUpClass()
        cls.browser = Browser()
        cls.addClassCleanup(cls.browser.close)
        cls.browser.visit(cls.live.address)

    def found(self, text: str, unit: str = "1") -> Any:
        return self.browser.run(f"import('./page/solid.js').then(({{ solidOf }}) => solidOf({json.dumps(text)}, '{unit}'))")

    def assert_alike(self, one: dict[str, Any], other: dict[str, Any], name: str) -> None:
        """Both draw the same edges on each plane. Where faces on a plane touch at a corner, loops may go on the one way or the
        other there, and straight through the corner or not, so ways are cut at all corners."""
        found, wanted = ways_on_planes(one), ways_on_planes(other)
        self.assertEqual(set(found), set(wanted), name)
        for plane, ways in found.items():
            corners = {corner for way in (*ways, *wanted[plane]) for corner in way}
            self.assertEqual(*(sorted(part for way in it for part in cut(*way, corners)) for it in (ways, wanted[plane])), name)

    def test_planes_and_measures_of_the_gallery(self) -> None:
        texts = {it.name: it.read_text() for it in sorted(Path(TOP, "gallery").glob("*.4off")) if it.stat().st_size < 40_000}
        texts["cut cube"] = CUT_CUBE.decode()
        self.assertGreater(len(texts), 15)
        for name, text in texts.items():
            boundary = fouroff.read(text.encode())
            told = self.found(text)
            wanted = json.loads(json.dumps(planes(boundary, closing.close(boundary))))
            self.assert_alike(told["drawn"], wanted, name)
            volume = measures.volume(boundary)
            sides = [high - low for low, high in measures.box(boundary)]
            self.assertEqual(told["facts"]["volume"], measures.shown(*volume), name)
            self.assertEqual(told["facts"]["box"], " x ".join(map(measures.shown, sides)), name)
            self.assertEqual(told["facts"]["faces"], str(len(boundary.faces)), name)

    def test_lengths_are_in_millimetres_where_there_is_a_unit(self) -> None:
        facts = self.found(off(box((0, 0, 0), (2, 3, 6))).decode(), "1/10")["facts"]
        self.assertEqual(
            facts, {"faces": "6", "box": "0.2 x 0.3 x 0.6", "ends": "(0, 0, 0) to (0.2, 0.3, 0.6)", "volume": "0.036"}
        )
        facts = self.found(off(box((-1, 0, 0), (2, 3, 6))).decode(), "1/3")["facts"]
        self.assertEqual(
            (facts["box"], facts["ends"], facts["volume"]), ("1 x 1 x 2", "(-1/3, 0, 0) to (2/3, 1, 2)", str(Fraction(2)))
        )

    def test_the_empty_solid_is_none(self) -> None:
        self.assertIsNone(self.found("4OFF\n0 0 0\n"))


if __name__ == "__main__":
    unittest.main()
