"""What scadlive answers programs: solids in all formats, faults, files of the folder and their changes, with a stand-in for the
server, whose solid is a box with a side of 1 or of the last `w=N` in a source."""

from __future__ import annotations

import json
import os
import tempfile
import time
import unittest
import zipfile
from io import BytesIO
from typing import Any, Dict, Iterator, List, Tuple
from urllib.parse import urlencode

from scadserve.live import openscad
from scadserve.source.sources import Refused
from scadserve.version import VERSION
from tests import live_case
from tests.live_case import BUSY, PATIENCE, Live
from tests.stand_in import BOX

CUBE = BOX.format(1).encode()
SECRET = "// the secret of another folder\n"


class Solids(live_case.Case):
    words = ("--seconds", f"{2 * BUSY:.1f}", "-I", "library")

    @classmethod
    def make(cls) -> None:
        (cls.folder / "lib").mkdir()
        (cls.folder / "lib" / "size.scad").write_text("w = 4;\n")
        (cls.around / "secret.scad").write_text(SECRET)
        os.symlink(cls.around / "secret.scad", cls.folder / "link.scad")
        os.symlink(cls.around, cls.folder / "away")

    def faults(self, answer: live_case.Answer, status: int = 422) -> Any:
        self.assertEqual((answer.status, answer.headers["content-type"]), (status, "application/json"), answer.body)
        return answer.json()["faults"]

    def test_a_source_gives_its_4off_text(self) -> None:
        answer = self.live.solid("w = 3;")
        self.assertEqual((answer.status, answer.body), (200, BOX.format(3).encode()))
        self.assertEqual(answer.headers["content-disposition"], "attachment; filename*=UTF-8''source.4off")

    def test_each_format_is_written_as_the_tools_write_it(self) -> None:
        for form, begins in (
            ("stl", b"solid part\n"), ("binstl", b"binary STL of part"), ("off", b"OFF\n8 12 0\n"), ("obj", b"o part\n")
        ):
            answer = self.live.solid("w = 2;", format=form, file="part.scad")
            self.assertEqual((answer.status, answer.body[: len(begins)]), (200, begins), form)
        self.assertTrue(self.live.solid("w = 2;", format="svg").body.startswith(b"<svg "))
        page = self.live.solid("w = 2;", format="html", file="lib/a b.scad")
        self.assertIn(b"<title>a b</title>", page.body)
        self.assertEqual(page.headers["content-disposition"], "attachment; filename*=UTF-8''a%20b.html")
        self.assertIn("sandbox", page.headers["content-security-policy"])
        with zipfile.ZipFile(BytesIO(self.live.solid("w = 2;", format="3mf").body)) as package:
            self.assertIn(b'<vertex x="2" y="2" z="2"/>', package.read("3D/3dmodel.model"))

    def test_accept_chooses_the_format_where_the_query_does_not(self) -> None:
        self.assertTrue(self.live.solid("", {"Accept": "model/stl"}, D=("w=1",)).body.startswith(b"solid "))
        self.assertTrue(self.live.solid("w = 1;", {"Accept": "text/x, model/obj;q=0.5, */*"}).body.startswith(b"o "))
        self.assertEqual(self.live.solid("w = 1;", {"Accept": "*/*"}).body, CUBE)
        self.assertEqual(self.live.solid("w = 1;", {"Accept": "application/json"}).json()["solid"].encode(), CUBE)
        self.assertEqual(self.live.solid("w = 1;", {"Accept": "image/png"}).status, 406)

    def test_the_unit_is_that_of_the_call_or_of_the_source(self) -> None:
        for unit, text, corner in (
            ("1/10", "w = 5;", b"0.5 0.5 0.5"), (None, "// unit: 1/4\nw = 2;", b"0.5 0.5 0.5"), (None, "w=2;", b"2 2 2")
        ):
            words = urlencode({"format": "off", **({"unit": unit} if unit else {})})
            self.assertIn(corner, self.live.ask("POST", f"/solid?{words}", text.encode()).body.splitlines())
        self.assertEqual(self.live.solid("// unit: 1/4\nw = 2;", format="json").json()["unit"], "1/4")
        bad = self.live.solid("// unit: no\nw = 2;", format="json").json()
        self.assertEqual(
            (bad["unit"], bad["notes"][0]["line"], bad["notes"][0]["message"].partition(":")[0]), (None, 1, "BadUnit")
        )

    def test_definitions_count_behind_the_source(self) -> None:
        self.assertEqual(self.live.solid("w = 3;", D=("a=[1, 2]", "w=7")).body, BOX.format(7).encode())
        noted = self.live.solid("w = 3;", D=("other=1",), format="json").json()["notes"]
        self.assertEqual([it["message"] for it in noted], ["the source never has other, which is assigned behind it"])
        [fault] = self.faults(self.live.solid("w = 3;", D=("w=7.5",)))
        self.assertEqual((fault["word"], fault["file"], fault["column"]), ("NotWhole", "-D w=7.5", 3))

    def test_what_openscad_takes_for_another_solid_is_noted_at_its_place(self) -> None:
        # (the sign before it is two units of a browser, and four bytes)
        text = "w = 1; /* \U0001f600 */ intersection() { cube(2); if (false) cube(1); }"
        [note] = self.live.solid(text, file="part.scad", format="json").json()["notes"]
        self.assertEqual(note, {
            "message": "OpenSCAD takes this for another solid: here an `if` that chooses no body is an empty child; in "
            "OpenSCAD it is not a child [if-child]", "file": "part.scad", "line": 1, "column": 45, "start": 42, "end": 44,
        })  # fmt: skip
        self.assertEqual(self.live.solid(text + " x = 2.5;", format="json").json()["notes"], [])

    def test_a_fault_has_its_place_its_cause_and_its_cure(self) -> None:
        # (the byte counts from 1, and what a browser marks from 0, in which the sign before it is two)
        [fault] = self.faults(self.live.solid('a = 1;\nb = "\U0001f600" + 2.5;', file="part.scad"))
        self.assertEqual({key: fault[key] for key in ("word", "file", "line", "column", "start", "end")}, {
            "word": "NotWhole", "file": "part.scad", "line": 2, "column": 14, "start": 11, "end": 14,
        })  # fmt: skip
        self.assertEqual(fault["message"][:4], "2.5 ")
        self.assertIn("tenths", fault["cure"])
        self.assertEqual(fault["told"].splitlines()[0], f"part.scad:2:14: error: NotWhole: {fault['message']}")
        self.assertIn(f"    cure: {fault['cure']}", fault["told"])

    def test_limits_and_solids_without_anything_are_faults(self) -> None:
        self.assertEqual(self.faults(self.live.solid("//= complex facets"))[0]["word"], "complex facets")
        self.assertEqual(self.faults(self.live.solid("//= empty", format="stl"))[0]["word"], "Empty")
        self.assertEqual(self.live.solid("//= empty").body, b"4OFF\n0 0 0\n")
        [fault] = self.faults(self.live.solid("x" * 1017))
        self.assertEqual((fault["word"], fault["line"], fault["column"]), ("TooLong", 1, 1017))

    def test_where_the_server_fails_nothing_is_said_of_the_source(self) -> None:
        for text, word in (
            ("//= wait", "OutOfTime"), ("//= status 9", "NoAnswer"), ("//= cut off", "NoAnswer"), ("//= nomem", "nomem")
        ):
            [fault] = self.faults(self.live.solid(text), 503)
            self.assertEqual((fault["word"], fault["line"]), (word, None))
            self.assertTrue(fault["cure"])

    def test_what_a_source_includes_stands_in_the_folder(self) -> None:
        self.assertEqual(self.live.solid("include <lib/size.scad>").body, BOX.format(4).encode())
        self.assertEqual(self.live.solid("include <size.scad>", file="lib/part.scad").body, BOX.format(4).encode())
        secret = str(self.around / "secret.scad")
        for word in ("include", "use"):
            for named in (
                "../secret.scad", secret, "link.scad", "away/secret.scad", "/etc/passwd", "lib/../../secret.scad", "/dev/stdin"
            ):
                answer = self.live.solid(f"w = 1;\n{word} <{named}>\n")
                [fault] = self.faults(answer)
                self.assertEqual((fault["word"], fault["line"], fault["column"]), ("NoFile", 2, 1), named)
                self.assertNotIn(b"secret of", answer.body)

    def test_parameters_come_with_each_answer(self) -> None:
        text = "/* [Size] */\n// how wide\nw = 3; // [1:9]\n"
        for source in (text, text + "cube(2.5);"):
            [found] = self.live.solid(source, format="json").json()["parameters"]
            wanted = {
                "name": "w",
                "kind": "number",
                "value": "3",
                "start": 29,
                "end": 30,
                "section": "Size",
                "description": "how wide",
            }
            wanted.update({"low": "1", "high": "9", "step": None, "choices": []})
            self.assertEqual(found, wanted)

    def test_the_version_is_told(self) -> None:
        self.assertEqual(self.live.ask("GET", "/version").json(), {"name": "scadserve", "version": VERSION})


class OpenScad(unittest.TestCase):
    """What OpenSCAD may read for a live page."""

    def setUp(self) -> None:
        folder = tempfile.TemporaryDirectory()
        self.addCleanup(folder.cleanup)
        self.root = os.path.realpath(folder.name)
        for name, text in (("in.scad", "a = 1;"), ("on.scad", "include </etc/passwd>"), ("pic.scad", 'surface("x.png");')):
            with open(os.path.join(self.root, name), "w", encoding="utf-8") as it:
                it.write(text)

    def test_files_of_the_folder_and_libraries_alone(self) -> None:
        def tried(text: str) -> None:
            openscad.test_reads(text.encode(), os.path.join(self.root, "part.scad"), [self.root], [self.root])

        for text in (
            "sphere(2);", "include <in.scad>", "use <MCAD/boxes.scad>", "// import it by hand, file by file", "imported = 1;"
        ):
            tried(text)
        refused: Tuple[str, ...] = (
            "include </etc/passwd>",
            "use <../x.scad>",
            "include\n <../x>",
            'x = "\\\n" include </etc/passwd>; "',
            "use <a/../../b>",
        )
        refused += (
            'import("/etc/passwd");', 'import /* */ ("a.stl");', "surface(file = x);", 'linear_extrude(file = "a.dxf");'
        )
        refused += ('dxf_dim(file="a");', 'import_stl("a");', "include <on.scad>", "use <pic.scad>", "include </etc/passwd")
        for text in refused:
            with self.assertRaises(Refused, msg=text):
                tried(text)


class Files(live_case.Case):
    @classmethod
    def make(cls) -> None:
        (cls.folder / "deep").mkdir()
        (cls.folder / ".hidden").mkdir()
        for name in ("a.scad", "deep/b.scad", ".c.scad", ".hidden/d.scad", "e.stl"):
            (cls.folder / name).write_text("w = 1;\n")
        (cls.around / "secret.scad").write_text(SECRET)
        os.symlink(cls.around / "secret.scad", cls.folder / "link.scad")
        os.symlink(cls.around, cls.folder / "away")
        os.mkfifo(cls.folder / "pipe.scad")
        (cls.folder / "large.scad").write_bytes(b"x" * 1_048_577)

    def mark(self, name: str) -> str:
        return self.live.ask("GET", f"/files/{name}").headers["etag"]

    def test_sources_are_listed_with_their_marks(self) -> None:
        files = self.live.ask("GET", "/files").json()["files"]
        self.assertLessEqual({"a.scad", "deep/b.scad"}, set(files))
        self.assertFalse(
            {".c.scad", ".hidden/d.scad", "e.stl", "link.scad", "pipe.scad", "away/secret.scad", "large.scad"} & set(files)
        )
        self.assertEqual(f'"{files["deep/b.scad"]}"', self.mark("deep/b.scad"))

    def test_no_name_leads_out_of_the_folder_nor_by_a_link(self) -> None:
        names = [
            "../secret.scad",
            "%2e%2e/secret.scad",
            "deep/%2e%2e/%2e%2e/secret.scad",
            "link.scad",
            "away/secret.scad",
            "pipe.scad",
        ]
        names += [
            ".c.scad", ".hidden/d.scad", "e.stl", "deep", "deep/", "/a.scad", "%00.scad", "a.scad%00", "large.scad", "no.scad"
        ]
        names += [
            "..%2fsecret.scad",
            "%2fetc%2fpasswd",
            f"{'x' * 300}.scad",
            f"{'x/' * 3000}a.scad",
            "a.scad/b.scad",
            "deep//b.scad",
            "./a.scad",
        ]
        for name in names:
            tried: List[Tuple[str, Dict[str, str]]] = [("GET", {}), ("PUT", {"If-Match": "*"}), ("PUT", {"If-None-Match": "*"})]
            for method, headers in tried:
                if (name, headers) == ("no.scad", {"If-None-Match": "*"}):
                    continue
                answer = self.live.ask(method, f"/files/{name}", None if method == "GET" else b"w = 9;", headers)
                self.assertIn(answer.status, (403, 404, 412), (method, name))
                self.assertNotIn(b"secret of", answer.body)
        self.assertEqual((self.around / "secret.scad").read_text(), SECRET)
        self.assertEqual(sorted(it.name for it in self.around.iterdir()), ["parts", "secret.scad"])

    def test_a_file_is_saved_where_it_is_as_it_was_known(self) -> None:
        self.assertEqual(self.live.put("new.scad", "w = 2;", If_None_Match="*").status, 204)
        self.assertEqual(self.live.put("new.scad", "w = 3;", If_None_Match="*").status, 412)
        known = self.mark("new.scad")
        saved = self.live.put("new.scad", "w = 3;", If_Match=known)
        self.assertEqual((saved.status, saved.headers["etag"]), (204, self.mark("new.scad")))
        (self.folder / "new.scad").write_text("w = 4;")
        refused = self.live.put("new.scad", "w = 5;", If_Match=saved.headers["etag"])
        self.assertEqual((refused.status, refused.headers["etag"]), (412, self.mark("new.scad")))
        self.assertEqual((self.folder / "new.scad").read_text(), "w = 4;")
        self.assertEqual(self.live.put("new.scad", "w = 6;").status, 428)
        self.assertEqual(self.live.put("no.scad", "w = 6;", If_Match='"0"').status, 412)
        self.assertFalse((self.folder / "no.scad").exists())

    def test_a_body_that_breaks_off_leaves_the_file_as_it_was(self) -> None:
        head = f"PUT /files/deep/b.scad HTTP/1.1\r\nHost: {self.live.host}\r\nIf-Match: *\r\nContent-Length: 100\r\n\r\n"
        self.assertEqual(self.live.raw(head.encode() + b"half of it"), b"")
        self.assertEqual((self.folder / "deep/b.scad").read_text(), "w = 1;\n")
        self.assertEqual(sorted(it.name for it in (self.folder / "deep").iterdir()), ["b.scad"])

    def test_a_change_on_disk_is_told_to_each_listener(self) -> None:
        for told in events(self.live):
            if "seen.scad" not in told["files"]:
                (self.folder / "seen.scad").write_text("w = 1;")
            elif (self.folder / "seen.scad").read_text() == "w = 1;":
                first = told["files"]["seen.scad"]
                (self.folder / "seen.scad").write_text("w = 2;")
            elif told["files"]["seen.scad"] != first:
                break
        self.assertEqual(f'"{told["files"]["seen.scad"]}"', self.mark("seen.scad"))


def events(live: Live) -> Iterator[Any]:
    """What a stream of events tells, each as it comes."""
    import http.client

    connection = http.client.HTTPConnection("127.0.0.1", live.port, timeout=PATIENCE)
    try:
        connection.request("GET", "/events")
        answer = connection.getresponse()
        assert (answer.status, answer.headers["Content-Type"]) == (200, "text/event-stream; charset=utf-8")
        end = time.monotonic() + PATIENCE
        while time.monotonic() < end:
            line = answer.readline()
            if line.startswith(b"data: "):
                yield json.loads(line[6:])
        raise AssertionError("nothing is told any more")
    finally:
        connection.close()


if __name__ == "__main__":
    unittest.main()
