"""Pages of off2html in a browser: what they show, and what keys, mouse, fingers and a changed file do."""

import os
import subprocess
import time
import unittest
from fractions import Fraction

from tests.calls import TOP
from tests.page_case import BRICK, Case
from tests.solids import CUT_CUBE, box, off

LINE = "29 43 58"


class Shown(Case):
    def test_a_page_shows_the_solid_and_asks_for_nothing(self):
        self.show(CUT_CUBE)
        facts = self.browser.run("document.getElementById('facts').innerText.replace(/\\s+/g, ' ')")
        self.assertEqual(facts, "Faces 7 Box 1 x 1 x 1, (0, 0, 0) to (1, 1, 1) Volume 25/27")
        # From the right and above: the front, the right, the top, and the cut, which is narrow.
        self.assertIn(len(self.faces()), (3, 4))
        self.assertEqual(self.browser.addresses(), [f"file://{self.place}"])
        self.assertEqual(self.browser.complaints(), [])

    def test_standard_views_have_the_sides_of_the_box(self):
        self.show(BRICK)
        for key, wide, high in (("1", 2, 6), ("2", 3, 6), ("3", 2, 6), ("4", 3, 6), ("5", 2, 3), ("6", 2, 3)):
            self.press(key)
            self.assert_painted(wide, high)
            self.assertEqual(len(self.faces()), 1)

    def test_the_view_of_the_words(self):
        self.show(BRICK, "--view", "90", "0")
        self.assert_painted(3, 6)

    def test_what_is_in_front_hides_what_is_behind(self):
        # A wide box before a smaller one: from the front none of its corners is seen, and from behind four are. (A corner that
        # lies just behind the rim of what is before it may be told, so none does.)
        self.show(off(box((0, 0, 0), (4, 1, 3)) + box((1, 2, 1), (3, 3, 2))))
        for key, wide, narrow in (("1", 0, None), ("3", 1, 3)):
            self.press(key)
            self.painted()
            expected = {f"corner ({x}, {wide}, {z})" for x in (0, 4) for z in (0, 3)}
            if narrow:
                expected |= {f"corner ({x}, {narrow}, {z})" for x in (1, 3) for z in (1, 2)}
            seen = set()
            for _ in range(9):
                self.press("n")
                seen.add(self.told())
            self.assertEqual(seen, expected)

    def test_edges_on_and_off(self):
        self.show(BRICK)
        self.assertGreater(self.painted()["colours"].get(LINE, 0), 100)
        self.press("e")
        self.assertEqual(self.painted()["colours"].get(LINE, 0), 0)
        self.assertEqual(self.browser.run("document.querySelector('[data-key=e]').ariaPressed"), "false")
        self.browser.run("document.querySelector('[data-key=e]').click()")
        self.assertGreater(self.painted()["colours"].get(LINE, 0), 100)

    def test_light_and_dark(self):
        ground = "getComputedStyle(document.body).backgroundColor"
        self.show(BRICK)
        light, faces = self.browser.run(ground), self.faces()
        self.press("d")
        self.assertNotEqual(self.browser.run(ground), light)
        self.assertFalse(self.faces() & faces)
        self.press("d")
        self.assertEqual((self.browser.run(ground), self.faces()), (light, faces))
        self.addCleanup(self.browser.ask, "Emulation.setEmulatedMedia", features=[])
        self.browser.ask("Emulation.setEmulatedMedia", features=[{"name": "prefers-color-scheme", "value": "dark"}])
        self.browser.wait(f"{ground} !== '{light}'")

    def test_a_small_screen(self):
        self.addCleanup(self.browser.resize, 640, 560)
        self.browser.resize(360, 640)
        self.show(BRICK)
        self.assertLessEqual(self.browser.run("document.documentElement.scrollWidth"), 360)
        self.press("1")
        self.assert_painted(2, 6)

    def test_pages_of_the_gallery(self):
        for name in ("bracket", "menger"):
            self.open(f"{TOP}/gallery/{name}.html")
            self.assertEqual(self.browser.complaints(), [])
            self.assertGreaterEqual(len(self.faces()), 3)


class Moved(Case):
    def test_keys(self):
        self.show(BRICK)
        self.press("1", *["ArrowLeft"] * 18)  # 90 degrees
        self.assert_painted(3, 6)
        self.press(*["ArrowRight"] * 18, *["ArrowDown"] * 19)  # (no further than straight down)
        self.assert_painted(2, 3)
        self.press("1", "+")
        self.assert_painted(2, 6, size=1.25)
        self.press("-", "Shift+ArrowRight", "Shift+ArrowDown", "Shift+ArrowDown")
        self.assert_painted(2, 6, x=24, y=48)
        self.press("Home", "1")
        self.assert_painted(2, 6)

    def test_the_first_view(self):
        self.show(BRICK)
        first = self.painted()
        for key in ("Home", "0"):
            self.press("5", "+", "Shift+ArrowLeft", key)
            self.assertEqual(self.painted(), first)

    def test_mouse(self):
        self.show(BRICK)
        x, y = self.middle
        self.press("1")
        self.browser.drag((x, y), (x - 225, y))  # 0.4 degrees by a pixel
        self.assert_painted(3, 6)
        self.browser.drag((x, y), (x, y + 100))
        self.press("1")
        for how in ({"shift": True}, {"button": "right"}, {"button": "middle"}):
            self.browser.drag((x, y), (x + 60, y - 40), **how)
            self.assert_painted(2, 6, x=60, y=-40)
            self.browser.drag((x, y), (x - 60, y + 40), **how)
        # What is under the wheel stays there: the middle of the right edge, to which the rest comes.
        self.browser.mouse("mouseWheel", *self.at(1, 0), deltaX=0, deltaY=400)
        self.assert_painted(2, 6, x=self.unit * (1 - 0.5488), size=0.5488)  # e to the power -0.6

    def test_fingers(self):
        self.show(BRICK)
        x, y = self.middle
        self.press("1")
        self.browser.touch("touchStart", (x, y))
        for part in (50, 150, 225):
            self.browser.touch("touchMove", (x - part, y))
        self.browser.touch("touchEnd")
        self.assert_painted(3, 6)
        self.browser.touch("touchStart", (x - 100, y), (x + 100, y))
        for part in (80, 50):
            self.browser.touch("touchMove", (x - part, y), (x + part, y))
        self.browser.touch("touchEnd")
        self.assert_painted(3, 6, size=0.5)
        self.browser.touch("touchStart", (x - 50, y), (x + 50, y))
        self.browser.touch("touchMove", (x - 20, y + 30), (x + 80, y + 30))
        self.browser.touch("touchEnd")
        self.assert_painted(3, 6, x=30, y=30, size=0.5)


class Corners(Case):
    def hover(self, right, up):
        self.browser.mouse("mouseMoved", *self.at(right, up))
        return self.told()

    def test_the_corner_under_the_pointer(self):
        self.show(CUT_CUBE)
        self.unit = 0.46 * min(self.width, self.height) / (0.75**0.5)
        self.press("5")
        self.painted()
        self.assertEqual(self.hover(0.5, 1 / 3 - 0.5), "corner (1, 1/3, 1), about (1, 0.333333, 1)")
        self.assertEqual(self.hover(-0.5, -0.5), "corner (0, 0, 1)")
        self.assertEqual(self.hover(0.5, 0.5), "corner (1, 1, 1/3), about (1, 1, 0.333333)")
        self.assertEqual(self.hover(0, -0.25), "")

    def test_hidden_corners_are_not_told(self):
        # From the front the corners with y = 3 are behind those with y = 0, and those of a box inside are hidden.
        self.show(off(box((0, 0, 0), (2, 3, 6))), "--view", "0", "0")
        self.painted()
        self.assertEqual(
            [self.hover(x, z) for x, z in ((-1, -3), (1, -3), (1, 3))],
            [f"corner ({it})" for it in ("0, 0, 0", "2, 0, 0", "2, 0, 6")],
        )

    def test_exact_fractions(self):
        long = Fraction(2 * 10**30 + 1, 10**30)
        self.show(off(box((-long, 0, 0), (0, 3, 6))), "--view", "0", "0")
        self.painted()
        found = self.hover(-1, -3)
        self.assertEqual(found, f"corner (-{long.numerator}/{long.denominator}, 0, 0), about (-2, 0, 0)")
        self.show(BRICK, "--unit", "2/15", "--view", "0", "0")
        self.painted()
        self.assertEqual(self.hover(1, 3), "corner (4/15, 0, 4/5), about (0.266667, 0, 0.8)")

    def test_what_is_told_does_not_move_the_picture(self):
        long = Fraction(2 * 10**30 + 1, 10**30)
        self.addCleanup(self.browser.resize, 640, 560)
        for width in (360, 480, 639):
            self.browser.resize(width, 560)
            self.show(off(box((-long, 0, 0), (0, 3, 6))), "--view", "0", "0")
            self.painted()
            size = self.browser.run("[view.clientWidth, view.clientHeight, document.documentElement.scrollHeight]")
            for x, z in ((-1, -3), (1, -3), (1, 3), (-1, 3)):
                exact = f"-{long.numerator}/{long.denominator}" if x < 0 else "0"
                self.assertRegex(self.hover(x, z), rf"\Acorner \({exact}, 0, {3 + z}\)")
            self.assertEqual(
                self.browser.run("[view.clientWidth, view.clientHeight, document.documentElement.scrollHeight]"), size
            )
            # All of it is seen, and the pointer goes through it.
            self.assertTrue(self.browser.run("corner.scrollHeight <= corner.clientHeight && corner.clientHeight > 0"))
            place = "corner.getBoundingClientRect()"
            self.assertNotEqual(self.browser.run(f"document.elementFromPoint({place}.left + 9, {place}.top + 2).id"), "corner")

    def look_at(self, *place, zoom):
        """Loads the page again, from the front, with this place in the middle."""
        view = f"{{ azimuth: 0, elevation: 0, centre: {list(place)}, zoom: {zoom} }}"
        switches = "{ hasEdges: true, isDark: false, isWatching: false }"
        # (the page takes the view that was kept; what it would keep itself is left out)
        self.browser.run(f"history.replaceState({{ view: {view}, switches: {switches} }}, '')")
        self.browser.run("history.replaceState = () => {}; document.body.id = 'old'; location.reload()")
        self.browser.wait("document.body.id !== 'old' && Number(view.dataset.frames) > 0")
        self.painted()

    def test_a_corner_between_nearer_faces_is_told_however_large_it_is_shown(self):
        # A box to the left of it is nearer, and so is one above it. The picture keeps its depth in 24 bits, here to 16 pixels.
        gap = Fraction(1, 10**12)
        left, above = box((-2, 0, 0), (-gap, Fraction(1, 4), 9)), box((-3, Fraction(1, 2), 6 + gap), (2, Fraction(3, 4), 9))
        self.show(off(box((0, 1, 0), (2, 2, 6)) + left + above))
        for away in range(6):
            self.look_at(0, 8 + away / 7, 6, zoom=1e6)
            self.assertEqual(self.hover(0, 0), "corner (0, 1, 6)")

    def test_of_corners_at_one_place_the_one_in_front_is_told(self):
        # Seen from the front the lower edge of the box behind is the upper one of the box before it.
        front, behind = box((0, 0, 0), (2, 1, 1)), box((0, 2, 1), (2, 3, 2))
        for faces in (front + behind, behind + front):
            self.show(off(faces), "--view", "0", "0")
            self.unit = 0.46 * min(self.width, self.height) / (17**0.5 / 2)
            self.painted()
            self.assertEqual([self.hover(x, 0) for x in (-1, 1)], ["corner (0, 0, 1)", "corner (2, 0, 1)"])

    def test_keys_go_from_corner_to_corner(self):
        self.show(BRICK, "--view", "30", "30")
        self.painted()
        seen = []
        for _ in range(8):
            self.press("n")
            seen.append(self.told())
        # Of eight corners the one behind is hidden.
        self.assertEqual((len(set(seen[:7])), seen[7]), (7, seen[0]))
        self.assertNotIn("corner (0, 3, 0)", seen)
        self.press("p")
        self.assertEqual(self.told(), seen[6])

    def test_a_finger_tells_a_corner(self):
        self.show(BRICK, "--view", "0", "0")
        self.painted()
        self.browser.touch("touchStart", self.at(-1, 3))
        self.browser.touch("touchEnd")
        self.browser.wait("document.getElementById('corner').textContent === 'corner (0, 0, 6)'")


class Watched(Case):
    def start(self):
        """The tool, which watches a file whose page is open."""
        words = [TOP + "/bin/off2html", "--watch", self.path("w.4off"), "-o", self.path("w.html")]
        tool = subprocess.Popen(words, stderr=subprocess.DEVNULL)
        self.addCleanup(tool.wait)
        self.addCleanup(tool.kill)
        end = time.monotonic() + 100
        while not os.path.exists(self.path("w.html")) and time.monotonic() < end:
            time.sleep(0.1)
        self.open(self.path("w.html"))

    def volume(self, expected):
        self.browser.wait(f"document.querySelector('#facts div:last-child dd')?.textContent === '{expected}'")

    def test_the_page_shows_each_solid_in_the_same_view_and_a_fault(self):
        self.file("w.4off", BRICK)
        self.start()
        self.press("2", "e", "d")
        self.assert_painted(3, 6)
        self.file("w.4off", off(box((0, 0, 0), (2, 6, 3))))  # (with the same ball)
        self.volume(36)
        self.file("w.4off", off(box((0, 0, 0), (1, 3, 6))))
        self.volume(18)
        self.browser.wait("Number(view.dataset.frames) > 0")
        self.assertEqual(self.browser.run("document.querySelector('[data-key=e]').ariaPressed"), "false")
        self.assertEqual(self.browser.run("document.documentElement.style.colorScheme"), "dark")
        self.assertEqual(len(self.faces()), 1)
        self.file("w.4off", b"4OFF\n1 1\n")
        alert = self.browser.wait("document.querySelector('[role=alert]')?.textContent")
        self.assertRegex(alert, r"w\.4off:2: error: .*\. This is the previous solid\.\Z")
        self.volume(18)
        self.assertEqual(self.browser.complaints(), [])

    def test_by_a_key_a_page_follows_what_other_programs_write(self):
        self.show(BRICK)
        self.press("w")
        self.assertEqual(self.browser.run("document.querySelector('[data-key=w]').ariaPressed"), "true")
        self.call("-o", self.place, self.file("a.4off", off(box((0, 0, 0), (2, 3, 5)))))
        self.volume(30)


if __name__ == "__main__":
    unittest.main()
