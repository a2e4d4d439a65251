"""The parts of bench/maker beside the numbers of OpenSCAD's own STL, which `bench/maker.py` keeps there."""

from __future__ import annotations

import importlib.util
import os
import tempfile
import unittest
from fractions import Fraction
from typing import Any
from unittest import mock

from tests.calls import PROGRAM, TOP, needs_program
from tests.needs import needs

_SPEC = importlib.util.spec_from_file_location("maker", os.path.join(TOP, "bench", "maker.py"))
assert _SPEC and _SPEC.loader
maker: Any = importlib.util.module_from_spec(_SPEC)
_SPEC.loader.exec_module(maker)

needs_openscad = needs("openscad")
# A tetrahedron with three legs of 1.5 along the axes, whose volume is 1.5^3 / 6.
FACES = (
    ("0 0 0", "0 1.5 0", "1.5 0 0"),
    ("0 0 0", "1.5 0 0", "0 0 1.5"),
    ("0 0 0", "0 0 1.5", "0 1.5 0"),
    ("1.5 0 0", "0 1.5 0", "0 0 1.5"),
)


class Numbers(unittest.TestCase):
    def test_an_stl_is_measured_exactly(self) -> None:
        found = maker.of_stl("".join(f" vertex {corner}\n" for face in FACES for corner in face))
        self.assertEqual((found.volume, found.ends), (Fraction(27, 48), ((0, Fraction(3, 2)),) * 3))
        # (each face has an area of at most half of 2.25 for each axis that it leans to, three times half of the sixth digit)
        self.assertEqual(found.within, Fraction(6 * 225, 200) * 3 * Fraction(1, 200000))

    def test_what_differs_is_told(self) -> None:
        known = maker.kept()
        self.assertEqual(tuple(known), maker.PARTS)
        clip = known["clip"]
        self.assertEqual(maker.differences("clip", clip, clip), [])
        larger = clip._replace(volume=clip.volume * Fraction(10001, 10000))
        self.assertEqual(len(maker.differences("clip", larger, clip)), 1)
        moved = clip._replace(ends=(*clip.ends[:2], (clip.ends[2][0], clip.ends[2][1] + Fraction(1, 1000))))
        self.assertEqual(len(maker.differences("clip", moved, clip)), 1)
        gear = known["gear"]
        self.assertEqual(maker.differences("gear", gear._replace(volume=gear.volume * Fraction(10009, 10000)), gear), [])
        self.assertEqual(len(maker.differences("gear", gear._replace(volume=gear.volume * Fraction(1002, 1000)), gear)), 1)


@needs_program
class Parts(unittest.TestCase):
    def assert_same(self, name: str) -> None:
        with tempfile.TemporaryDirectory() as folder, mock.patch.dict(os.environ, {"SCADSERVE": PROGRAM}):
            our, said = maker.ours(name, folder)
        found = [said] if our is None else maker.differences(name, our, maker.kept()[name])
        if found and ("fewer corners on curves" in said or "error: TooCoarse" in said):
            self.skipTest(f"{name} has more planes than a part may have, so corners are left out: {'; '.join(found)}")
        self.assertEqual(found, [], name)

    def test_those_in_whole_numbers(self) -> None:
        for name in maker.NATIVE:
            self.assert_same(name)

    @needs_openscad
    def test_the_gear(self) -> None:
        self.assert_same("gear")

    @needs_openscad
    def test_the_honeycomb_box(self) -> None:
        self.assert_same("honeycomb")

    @needs_openscad
    def test_the_label(self) -> None:
        self.assert_same("label")

    @needs_openscad
    def test_the_threaded_knob(self) -> None:
        self.assert_same("knob")

    @needs_openscad
    def test_the_twisted_vase(self) -> None:
        self.assert_same("vase")


if __name__ == "__main__":
    unittest.main()
