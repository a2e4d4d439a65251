"""Pages of off2html in a browser: a page is opened, and what it paints and tells is looked at.

Lengths in the picture are worked out by hand: a unit is 0.46 times the smaller side of the canvas by the radius of the ball
round the box. A box of 2 x 3 x 6 has a ball of 7/2. """

from scadserve.tools import off2html
from tests import tool_case
from tests.browser import Browser, needs_browser
from tests.solids import box, off

# Waits until the picture rests.
RESTS = """new Promise((done) => {
    let [frames, since] = ["", 0];
    const look = () => {
        const now = performance.now();
        if (view.dataset.frames !== frames) {
            [frames, since] = [view.dataset.frames, now];
        }
        now - since > 500 ? done(true) : setTimeout(look, 50);
    };
    look();
})"""
# What is painted: how wide and high, where its middle is from that of the canvas, and how many pixels each colour has.
PAINTED = """(() => {
    const { width, height } = view;
    const pixels = new Uint32Array(view.getContext("2d").getImageData(0, 0, width, height).data.buffer);
    let [left, right, top, bottom] = [width, -1, height, -1];
    const counts = new Map();
    for (let y = 0; y < height; y++) {
        // (the axes are below on the left)
        for (let x = y > height - 100 ? 100 : 0; x < width; x++) {
            const pixel = pixels[y * width + x];
            if (pixel >>> 31) {
                left = Math.min(left, x);
                right = Math.max(right, x);
                top = Math.min(top, y);
                bottom = Math.max(bottom, y);
                counts.set(pixel, (counts.get(pixel) ?? 0) + 1);
            }
        }
    }
    const colours = {};
    counts.forEach((count, pixel) => (colours[`${pixel & 255} ${(pixel >> 8) & 255} ${(pixel >> 16) & 255}`] = count));
    const [x, y] = [(left + right + 1 - width) / 2, (top + bottom + 1 - height) / 2];
    return { wide: right - left + 1, high: bottom - top + 1, x, y, colours };
})()"""
BRICK = off(box((0, 0, 0), (2, 3, 6)))


@needs_browser
class Case(tool_case.Case):
    tool = off2html
    shown = 0

    @classmethod
    def setUpClass(cls):
        cls.browser = Browser(640, 560)
        cls.addClassCleanup(cls.browser.close)

    def show(self, data, *words):
        """Opens the page of a solid, which is a new one: one that was open keeps its view."""
        self.shown += 1
        self.place = self.path(f"{self.shown}.html")
        self.assertEqual(self.call(*words, "-o", self.place, self.file("a.4off", data)), (0, ""))
        self.open(self.place)

    def open(self, path):
        self.browser.open(path)
        self.browser.wait("Number(view.dataset.frames) > 0")
        self.width, self.height = self.browser.run("[view.clientWidth, view.clientHeight]")
        left, top = self.browser.run("[view.getBoundingClientRect().left, view.getBoundingClientRect().top]")
        self.middle = (left + self.width / 2, top + self.height / 2)
        self.unit = 0.46 * min(self.width, self.height) / 3.5

    def press(self, *keys):
        for key in keys:
            self.browser.key(key.removeprefix("Shift+"), key.startswith("Shift+"))

    def painted(self):
        self.browser.run(RESTS)
        return self.browser.run(PAINTED)

    def assert_painted(self, wide, high, x=0, y=0, size=1.0):
        """A rectangle of this many units is painted, with its middle this many pixels to the right of that of the canvas and
        below.
        """
        found = self.painted()
        for name, expected in (("wide", wide * self.unit * size), ("high", high * self.unit * size), ("x", x), ("y", y)):
            self.assertAlmostEqual(found[name], expected, delta=2.5, msg=name)

    def faces(self):
        """The colours that faces have."""
        return {colour for colour, pixels in self.painted()["colours"].items() if pixels > 2500}

    def told(self):
        return self.browser.run("document.getElementById('corner').textContent")

    def at(self, right, up):
        """Where a place this many units from the middle of the canvas is on the screen."""
        return self.middle[0] + right * self.unit, self.middle[1] - up * self.unit
