"""Outputs are read with their scripts and printed again; what can't be an answer is refused."""

import glob
import os
import re
import unittest

from scadserve.server.failures import Malformed
from scadserve.server.replies import (
    RULES,
    Complex,
    Fault,
    NoMemory,
    Ok,
    Refused,
    Session,
    Solid,
    Text,
    commands_of,
    printed,
    read,
)
from tests.case_rows import rows, spelled

TOP = os.path.dirname(os.path.dirname(os.path.dirname(os.path.realpath(__file__))))
EMPTY = b"4OFF\n0 0 0\n"
TETRAHEDRON = b"4OFF\n4 4 0\n0 0 0 1\n0 1 0 1\n1 0 0 1\n0 0 1 2\n3 0 1 2\n3 0 2 3\n3 0 3 1\n3 3 2 1\n"


def bytes_of(*path):
    with open(os.path.join(TOP, *path), "rb") as it:
        return it.read()


class Examples(unittest.TestCase):
    def test_each_output_is_read_with_its_script_and_printed_again(self):
        outputs = glob.glob(os.path.join(TOP, "examples", "*.output"))
        self.assertGreaterEqual(len(outputs), 6)
        for path in outputs:
            with self.subTest(path=path):
                output = bytes_of(path)
                self.assertEqual(printed(read(bytes_of(path[: -len("output")] + "script"), output)), output)

    def test_replies_have_their_types(self):
        answers = read(bytes_of("examples", "edits.script"), bytes_of("examples", "edits.output"))
        left, right = answers["left"], answers["right"]
        self.assertEqual(list(answers), ["left", "right"])
        self.assertEqual(left[:2], [Ok(1), Text((b"cube([1,2,3]);",))])
        self.assertEqual((left[2].vertices, left[2].faces, left[2].text[:12]), (8, 6, b"4OFF\n8 6 0\n0"))
        self.assertEqual(left[3], Refused("NoSuchLine"))
        self.assertEqual(right[1], Fault(2, 1, "Expected"))


def replies_of(commands):
    """What a session answers these commands; None for an export that the source decides."""
    session = Session()
    return [session.answer(it) for it in commands]


class ServerCases(unittest.TestCase):
    """The table of a session's rules beside the cases of the server, whose answers were worked by hand."""

    def cases(self):
        """The scripts that are served, each with the number of its row, its kind and its whole output or the end of it."""
        for number, case, answer in rows("server_cases"):
            words, _, script = case.partition(b" /")
            kind = words.partition(b" ")[0]
            if kind in (b"serve", b"tail") and answer.startswith(b"Done ") and b"--tally" not in words and script.strip():
                script, output = (spelled(it.replace(b"|", b"\n")) for it in (script[1:], answer[len(b"Done ") :]))
                yield number, kind, script, output

    def test_the_table_gives_the_replies_of_the_server(self):
        met = set()
        for number, kind, script, output in self.cases():
            clients = commands_of(script)
            wanted = {name: replies_of(commands) for name, commands in clients.items()}
            with self.subTest(row=number):
                if kind == b"serve":
                    # (which refuses an output that has another reply than the table gives)
                    read(script, output)
                else:
                    *_, known = wanted.values()
                    for at, first in re.findall(rb"(?m)^([0-9]+) ((?:ok|refused|text) \w+)$", output.rpartition(b"== ")[2]):
                        self.assertEqual(bytes(known[int(at) - 1]).splitlines()[0], first)
            for name, commands in clients.items():
                for command, found in zip(commands, wanted[name]):
                    if isinstance(found, Refused):
                        met.add((command.partition(b" ")[0], found.word))
        # (each refusal of the table is one that the server answers in some case)
        names = {rule.name: [word for word, _ in rule.refusals] for rule in RULES}
        self.assertEqual({(name, word) for name, words in names.items() for word in words} - met, set())

    def test_an_output_with_another_reply_is_refused(self):
        for script, output in ((b"a put 2 x", b"1 ok 1"), (b"a cut 1 1", b"1 refused BadCommand"), (b"a set 1", b"1 ok 1")):
            with self.subTest(script=script), self.assertRaises(Malformed):
                read(script, b"== a\n" + output + b"\n")


class Kinds(unittest.TestCase):
    """Each kind of reply, in the form that the specification gives it."""

    CASES = [
        (b"a put 1 x\n", b"1 ok 1\n", Ok(1)),
        (b"a put 2 x\n", b"1 refused NoSuchLine\n", Refused("NoSuchLine")),
        (b"a put 0 x\n", b"1 refused NoSuchLine\n", Refused("NoSuchLine")),
        (b"a put x\n", b"1 refused BadCommand\n", Refused("BadCommand")),
        (b"a put  1 x\n", b"1 refused BadCommand\n", Refused("BadCommand")),
        (b"a show \n", b"1 refused BadCommand\n", Refused("BadCommand")),
        (b"a jump\n", b"1 refused BadCommand\n", Refused("BadCommand")),
        (b"a\n", b"1 refused BadCommand\n", Refused("BadCommand")),
        (b"a jump\n", b"1 nomem\n", NoMemory()),
        (b"a show\n", b"1 text 0\n", Text(())),
        (b"a show", b"1 text 0\n", Text(())),
        (b"a show\r\n", b"1 text 0\n", Text(())),
        (b"a export\n", b"1 solid 2\n" + EMPTY, Solid(0, 0, EMPTY)),
        (b"a export\n", b"1 solid 10\n" + TETRAHEDRON, Solid(4, 4, TETRAHEDRON)),
        (b"a export\n", b"1 fault 1:4 NotWhole\n", Fault(1, 4, "NotWhole")),
        (b"a export\n", b"1 complex solid 597\n", Complex("solid", 597)),
        (b"a export\n", b"1 complex sum 3\n", Complex("sum", 3)),
        (b"a export\n", b"1 complex facets\n", Complex("facets")),
        (b"a export\n", b"1 complex corners\n", Complex("corners")),
        (b"a export\n", b"1 complex vertices\n", Complex("vertices")),
        (b"a export\n", b"1 nomem\n", NoMemory()),
    ]

    def test_each_kind_is_read_and_printed_again(self):
        for script, reply, value in self.CASES:
            with self.subTest(script=script, reply=reply):
                answers = read(script, b"== a\n" + reply)
                self.assertEqual(answers, {"a": [value]})
                self.assertEqual(printed(answers), b"== a\n" + reply)

    def test_lines_are_put_set_cut_and_shown(self):
        script = b"a put 1 one\na put 1 // two\na set 0002 three\na put 3\na put 4 \na cut 3 3\na cut 2 9\na show\n"
        output = b"== a\n1 ok 1\n2 ok 2\n3 ok 2\n4 ok 3\n5 ok 4\n6 ok 3\n7 refused NoSuchLine\n8 text 3\n// two\nthree\n\n"
        self.assertEqual(read(script, output)["a"][-1], Text((b"// two", b"three", b"")))

    def test_a_text_may_look_like_a_reply_and_hold_any_byte(self):
        script = b"a put 1 2 text 1\x00\xff\r\r\na show\nb show\n"
        output = b"== a\n1 ok 1\n2 text 1\n2 text 1\x00\xff\r\n== b\n1 text 0\n"
        self.assertEqual(printed(read(script, output)), output)

    def test_a_command_without_memory_counts_as_not_given(self):
        script = b"a put 1 x\na put 1 y\na show\n"
        self.assertEqual(read(script, b"== a\n1 nomem\n2 ok 1\n3 text 1\ny\n")["a"][1], Ok(1))
        with self.assertRaises(Malformed):
            read(script, b"== a\n1 nomem\n2 ok 2\n3 text 1\ny\n")

    def test_the_17th_show_and_export_are_refused(self):
        show, export = (b"show", b"text 0\n", b"TooManyShows"), (b"export", b"fault 1:1 Expected\n", b"TooManyExports")
        for command, answer, word in (show, export):
            script = b"a nothing\n" + b"a %b\n" % command * 18
            replies = [b"refused BadCommand\n", b"nomem\n", *[answer] * 16, b"refused %b\n" % word]
            output = b"== a\n" + b"".join(b"%d %b" % it for it in enumerate(replies, 1))
            self.assertEqual(printed(read(script, output)), output)
            with self.assertRaises(Malformed):
                read(script, output.replace(b"2 nomem", b"2 " + answer.rstrip()))

    def test_an_empty_script_has_an_empty_output(self):
        self.assertEqual(read(b"", b""), {})


class Refusals(unittest.TestCase):
    """Outputs that can't be answers to their scripts."""

    SCRIPT = b"a put 1 cube(1);\na export\nb show\n"
    OUTPUT = b"== a\n1 ok 1\n2 solid 10\n" + TETRAHEDRON + b"== b\n1 text 0\n"

    def test_every_output_that_is_cut_off_is_refused(self):
        read(self.SCRIPT, self.OUTPUT)
        for length in range(len(self.OUTPUT)):
            with self.subTest(length=length), self.assertRaises(Malformed):
                read(self.SCRIPT, self.OUTPUT[:length])

    def test_every_output_that_lacks_a_line_or_has_one_twice_is_refused(self):
        lines = self.OUTPUT.splitlines(keepends=True)
        for at in range(len(lines)):
            for changed in (lines[:at] + lines[at + 1 :], lines[: at + 1] + lines[at:]):
                with self.subTest(changed=changed), self.assertRaises(Malformed):
                    read(self.SCRIPT, b"".join(changed))

    CHANGES = [
        (b"== a", b"== b"),
        (b"== a", b"==  a"),
        (b"1 ok 1", b"2 ok 1"),
        (b"1 ok 1", b"01 ok 1"),
        (b"1 ok 1", b"1 ok 01"),
        (b"1 ok 1", b"1 ok 2"),
        (b"1 ok 1", b"1 ok +1"),
        (b"1 ok 1", b"1 ok " + b"1" * 5000),
        (b"1 ok 1", b"1 ok 1 "),
        (b"1 ok 1", b"1  ok 1"),
        (b"1 ok 1", b"1 ok 1\r"),
        (b"1 ok 1", b"1 OK 1"),
        (b"1 ok 1", b"1 text 0"),
        (b"1 ok 1", b"1 solid 0"),
        (b"1 ok 1", b"1 fault 1:1 NotWhole"),
        (b"1 ok 1", b"1 complex facets"),
        (b"1 ok 1", b"1 refused NoSuchLine"),
        (b"1 ok 1", b"1 refused"),
        (b"2 solid 10", b"2 solid 9"),
        (b"2 solid 10", b"2 solid 11"),
        (b"2 solid 10", b"2 complex solid 10"),
        (b"2 solid 10", b"2 fault 1:1 Expected"),
        (b"4OFF", b"OFF"),
        (b"4 4 0", b"4 4 1"),
        (b"4 4 0", b"5 3 0"),
        (b"4 4 0", b"3 5 0"),
        (b"0 0 0 1", b"0 0 0 0"),
        (b"0 0 0 1", b"0 0 0 -1"),
        (b"0 0 0 1", b"0 0 -0 1"),
        (b"0 0 0 1", b"0 0 0.0 1"),
        (b"0 0 0 1", b"0 0 0"),
        (b"3 3 2 1", b"3 4 2 1"),
        (b"3 3 2 1", b"4 3 2 1"),
        (b"3 3 2 1", b"2 3 2"),
        (b"3 3 2 1", b"3 3 2 -1"),
        (b"3 3 2 1", b"3 3 2 x"),
        (b"3 0 1 2", b"3 0 2 1"),
        (b"== b\n1 text 0", b"== b\n1 text 1\nx"),
        (b"== b\n1 text 0", b"== b\n1 text 0\ntally probes 0"),
        (b"== b\n1 text 0", b"== b\n1 nomem\n2 nomem"),
        (b"== b\n1 text 0", b"== b\n1 ok 0"),
    ]

    def test_outputs_with_another_line_are_refused(self):
        for old, new in self.CHANGES:
            self.assertEqual(self.OUTPUT.count(old + b"\n"), 1, old)
            with self.subTest(old=old, new=new), self.assertRaises(Malformed):
                read(self.SCRIPT, self.OUTPUT.replace(old + b"\n", new + b"\n"))

    def test_replies_that_export_alone_has_are_refused_elsewhere(self):
        for reply in (b"fault 0:1 NotWhole", b"fault 1:0 NotWhole", b"fault 1 NotWhole", b"fault 1:1", b"fault 1:1 Not Whole"):
            with self.subTest(reply=reply), self.assertRaises(Malformed):
                read(b"a export\n", b"== a\n1 " + reply + b"\n")
        for reply in (b"complex", b"complex solid", b"complex sum 0", b"complex facets 3", b"complex edges", b"nomem 1", b""):
            with self.subTest(reply=reply), self.assertRaises(Malformed):
                read(b"a export\n", b"== a\n1 " + reply + b"\n")

    def test_the_line_of_a_script_fault_and_the_usage_line_are_no_answers(self):
        for output in (b"script 1 TooLong\n", b"script TooLarge\n", b"usage: scadserve run\n", b""):
            with self.subTest(output=output), self.assertRaises(Malformed):
                read(self.SCRIPT, output)


if __name__ == "__main__":
    unittest.main()
