"""4OFF texts are read exactly, and what is none is refused with its line and the reason."""

import random
import unittest

from scadserve.solid.fouroff import Malformed, read
from tests.solids import CUT_CUBE, EMPTY, box, examples, gallery, off, split_box

BOX = b"""4OFF
8 6 0
0 0 0 1
0 0 3 1
0 2 3 1
0 2 0 1
1 0 0 1
1 2 0 1
1 2 3 1
1 0 3 1
4 0 1 2 3
4 4 5 6 7
4 0 4 7 1
4 3 2 6 5
4 0 3 5 4
4 1 7 6 2
"""


def reason(data):
    """The line and the reason for which a text is refused."""
    try:
        read(data)
    except Malformed as fault:
        return fault.line, fault.reason
    return None


class Reading(unittest.TestCase):
    def test_a_box(self):
        boundary = read(BOX)
        self.assertEqual(boundary.corners[6], (1, 2, 3, 1))
        self.assertEqual(boundary.faces[2], (0, 4, 7, 1))
        # Outward: low x, high x, low y, high y, low z, high z of a box 1 x 2 x 3.
        expected = [(-1, 0, 0, 0), (1, 0, 0, 1), (0, -1, 0, 0), (0, 1, 0, 2), (0, 0, -1, 0), (0, 0, 1, 3)]
        self.assertEqual(boundary.planes, expected)

    def test_corners_with_thirds(self):
        boundary = read(CUT_CUBE)
        self.assertEqual(boundary.corners[7:], [(3, 1, 3, 3), (3, 3, 1, 3)])
        # Through (0, 1, 1), (1, 1/3, 1) and (1, 1, 1/3): 2x + 3y + 3z = 6.
        self.assertEqual(boundary.planes[3], (2, 3, 3, 6))

    def test_the_empty_solid(self):
        boundary = read(EMPTY)
        self.assertEqual((boundary.corners, boundary.faces, boundary.planes), ([], [], []))

    def test_all_texts_of_the_project(self):
        texts = {**examples(), **gallery()}
        self.assertGreaterEqual(len(texts), 18)
        for name, text in texts.items():
            with self.subTest(name):
                boundary = read(text)
                self.assertEqual(text.split(b"\n")[1], b"%d %d 0" % (len(boundary.corners), len(boundary.faces)))

    def test_the_helper_prints_what_is_read(self):
        self.assertEqual(len(read(off(split_box())).faces), 7)


class Refusing(unittest.TestCase):
    def assert_refused(self, old, new, line, words):
        """The box with one piece of its text changed is refused at this line for a reason with these words."""
        self.assertEqual(BOX.count(old), 1, old)
        found = reason(BOX.replace(old, new))
        self.assertIsNotNone(found, new)
        self.assertEqual(found[0], line)
        self.assertIn(words, found[1])
        self.assertNotIn("\n", found[1])

    def test_the_first_lines(self):
        self.assertEqual(reason(b""), (1, "the text is empty"))
        self.assertEqual(reason(b"4OFF\n")[0], 2)
        self.assert_refused(b"4OFF\n8", b"OFF\n8", 1, "not '4OFF'")
        self.assert_refused(b"4OFF\n8", b"4OFF\r\n8", 1, "a carriage return: lines end with a newline alone")
        self.assert_refused(b"8 6 0\n", b"8 6\n", 2, "VERTICES FACES 0")
        self.assert_refused(b"8 6 0\n", b"8 6 12\n", 2, "VERTICES FACES 0")
        self.assert_refused(b"8 6 0\n", b"8 7 0\n", 2, "are 17 lines, not 16")
        self.assert_refused(b"8 6 0\n", b"999999999 6 0\n", 2, "lines, not 16")

    def test_vertices(self):
        wrong = b"1 2 3|1 2 3 1 1|1 2.0 3 1|1  2 3 1|1 2 3 1 |01 2 3 1|-0 2 3 1|+1 2 3 1|1 2 3 0|1 2 3 -1".split(b"|")
        for other in [*wrong, b"1" * 5000 + b" 2 3 1"]:
            self.assert_refused(b"\n1 2 3 1\n", b"\n" + other + b"\n", 9, "not 'X Y Z W'")
        self.assert_refused(b"\n1 2 3 1\n", b"\n2 4 6 2\n", 9, "common factor")
        for other in (b"4097 2 3 1", b"1 2 -8193 2"):
            self.assert_refused(b"\n1 2 3 1\n", b"\n" + other + b"\n", 9, "further than 4096 units")
        self.assert_refused(b"\n1 2 3 1\n", b"\n0 2 3 1\n", 9, "stands on line 5 too")

    def test_faces(self):
        self.assert_refused(b"4 4 5 6 7\n", b"4 4 5 6\n", 12, "says 4 corners and has 3")
        self.assert_refused(b"4 4 5 6 7\n", b"2 4 5\n", 12, "at least 3")
        self.assert_refused(b"4 4 5 6 7\n", b"4 4 5 6 x\n", 12, "a face is not")
        self.assert_refused(b"4 4 5 6 7\n", b"4 4 5 6 -1\n", 12, "a face is not")
        self.assert_refused(b"4 4 5 6 7\n", b"4 4 5 6 5\n", 12, "a vertex twice")
        self.assert_refused(b"4 4 5 6 7\n", b"4 4 5 6 8\n", 12, "vertex 8 is not there")
        self.assert_refused(b"4 4 5 6 7\n", b"4 5 4 6 7\n", 12, "not numbered by first appearance")

    def test_a_vertex_of_no_face(self):
        more = BOX.replace(b"8 6 0\n", b"9 6 0\n").replace(b"1 0 3 1\n", b"1 0 3 1\n9 9 9 1\n")
        self.assertEqual(reason(more), (11, "no face has this vertex"))

    def test_faces_that_are_no_convex_polygons(self):
        self.assert_refused(b"\n1 2 3 1\n", b"\n1 2 4 1\n", 16, "not flat")
        dart = [(0, 0, 0), (4, 0, 0), (1, 1, 0), (0, 4, 0)]
        star = [(0, 5, 0), (3, -4, 0), (-5, 2, 0), (5, 2, 0), (-3, -4, 0)]
        straight = [(0, 0, 0), (1, 0, 0), (2, 0, 0), (0, 2, 0)]
        twice_round = [(0, 0, 0), (9, 0, 0), (9, 9, 0), (0, 9, 0), (1, 1, 0), (8, 1, 0), (8, 8, 0), (1, 8, 0)]
        spiral = [(0, 0, 0), (10, 0, 0), (-2, 10, 0), (-9, -4, 0), (5, -9, 0), (9, 3, 0)]
        for ring in (dart, star, star[::-1], twice_round, spiral):
            self.assertEqual(reason(off([ring]))[1], "the face is not convex", ring)
        for start in range(4):
            self.assertIsNotNone(reason(off([straight[start:] + straight[:start]])), start)
        self.assertEqual(reason(off([straight]))[1], "three corners of the face in a row lie on one line")

    def test_bytes_that_are_no_text(self):
        self.assert_refused(b"4 4 5 6 7\n", b"4 4 5 6 \xb2\n", 12, "not ASCII")
        self.assert_refused(b"4 4 5 6 7\n", b"4 4 5 6 7\r\n", 12, "a carriage return")
        self.assert_refused(b"4 4 5 6 7\n", b"4 4 5 6 7\x00\n", 12, "a face is not")

    def test_each_text_that_breaks_off(self):
        for size in range(len(BOX)):
            self.assertIsNotNone(reason(BOX[:size]), size)

    def test_any_bytes_are_read_or_refused(self):
        rolled = random.Random(36)
        for text in (BOX, CUT_CUBE, off(box((0, 0, 0), (1, 1, 1)))):
            for _ in range(1500):
                data = bytearray(text)
                for _ in range(rolled.randint(1, 3)):
                    data[rolled.randrange(len(data))] = rolled.choice(b"0123456789 -\n\r\x00\xffOF")
                reason(bytes(data))


if __name__ == "__main__":
    unittest.main()
