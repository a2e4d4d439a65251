"""Places in texts: lines from 0 and units of UTF-16, which are counted by hand here."""

import unittest

from scadserve.editor.framing import Failed
from scadserve.editor.texts import Text, encoded


def at(line, character):
    return {"line": line, "character": character}


class Places(unittest.TestCase):
    def test_units_of_utf_16_are_no_bytes(self):
        # (a letter of two bytes, and a sign of four bytes that is two units)
        text = Text("a\u00e9\U0001f600b\n".encode())
        for byte, character in ((0, 0), (1, 1), (3, 2), (7, 4), (8, 5)):
            self.assertEqual(text.position(byte), at(0, character))
            self.assertEqual(text.offset(at(0, character)), byte)
        self.assertEqual(text.offset(at(0, 3)), 3, "half a character counts for none")

    def test_each_end_of_a_line_ends_it(self):
        text = Text(b"a\nb\r\nc\rd")
        self.assertEqual([text.position(it) for it in (0, 2, 5, 7)], [at(0, 0), at(1, 0), at(2, 0), at(3, 0)])
        self.assertEqual([text.offset(at(it, 0)) for it in range(4)], [0, 2, 5, 7])
        # (the server knows the newline alone)
        self.assertEqual([text.byte(1, 1), text.byte(3, 1), text.byte(3, 3)], [0, 5, 7])
        self.assertEqual([text.spot(it) for it in (0, 2, 7)], [(1, 1), (2, 1), (3, 3)])

    def test_what_is_behind_an_end_is_that_end(self):
        text = Text(b"ab\r\ncd\n")
        self.assertEqual(text.offset(at(0, 99)), 2)
        self.assertEqual(text.offset(at(1, 99)), 6)
        self.assertEqual(text.offset(at(2, 5)), 7)
        self.assertEqual(text.offset(at(99, 0)), 7)

    def test_a_place_that_is_none(self):
        for position in (None, [], {}, at(-1, 0), at(0, -1), at("0", 0), at(0, 1.5), at(True, 0), {"line": 0}):
            with self.assertRaises(Failed, msg=position):
                Text(b"ab").offset(position)

    def test_halves_of_characters(self):
        text = Text(encoded("x\ud83dy"))
        self.assertEqual(text.position(len(text.data)), at(0, 3))
        self.assertEqual(text.offset(at(0, 2)), 4)

    def test_bytes_that_are_no_utf_8(self):
        text = Text(b"a\xff\xfeb")
        self.assertEqual(text.position(4), at(0, 4))
        self.assertLessEqual(text.offset(at(0, 9)), 4)


class Changes(unittest.TestCase):
    def change(self, text, start, end, new):
        return Text(text.encode()).changed({"range": {"start": start, "end": end}, "text": new}).data.decode()

    def test_other_text_for_a_range(self):
        self.assertEqual(self.change("abc\ndef\n", at(0, 1), at(1, 1), "X"), "aXef\n")
        self.assertEqual(self.change("\U0001f600=1;", at(0, 2), at(0, 2), "\u00e9"), "\U0001f600\u00e9=1;")
        self.assertEqual(self.change("ab", at(0, 2), at(0, 2), "\n"), "ab\n")
        self.assertEqual(self.change("ab\n", at(0, 0), at(1, 0), ""), "")

    def test_other_text_for_all(self):
        self.assertEqual(Text(b"abc").changed({"text": "x"}).data, b"x")
        self.assertEqual(Text(b"abc").changed({"text": "x", "range": None}).data, b"x")

    def test_changes_that_are_none(self):
        whole = {"start": at(0, 0), "end": at(0, 1)}
        for change in (None, {}, {"text": 1}, {"text": "", "range": 1}, {"text": "", "range": {"start": at(0, 0)}}):
            with self.assertRaises(Failed, msg=change):
                Text(b"abc").changed(change)
        with self.assertRaises(Failed):
            Text(b"abc").changed({"text": "", "range": {"start": whole["end"], "end": whole["start"]}})


if __name__ == "__main__":
    unittest.main()
