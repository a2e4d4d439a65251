"""The script that bytes spell, or their first fault: the crate `script_reader`."""

from __future__ import annotations

from typing import NamedTuple, Union

from .text_place import unless_short_numeral


class Put(NamedTuple):
    line: int
    text: bytes


class Set(NamedTuple):
    line: int
    text: bytes


class Cut(NamedTuple):
    start: int
    upto: int


class Show(NamedTuple):
    pass


class Export(NamedTuple):
    pass


class Bad(NamedTuple):
    """A line that is none of these."""


Command = Union[Put, Set, Cut, Show, Export, Bad]
Script = dict[bytes, list[Command]]


class ScriptFault(Exception):
    """Why bytes are no script: a word, and the number of the line that has the fault, where it is a line's."""

    def __init__(self, word: str, line: int | None = None) -> None:
        super().__init__(word, line)
        self.word = word
        self.line = line


def is_name(name: bytes) -> bool:
    """The name of a client: 1 to 16 bytes of `a` to `z` and `0` to `9`."""
    return 1 <= len(name) <= 16 and all(97 <= b <= 122 or 48 <= b <= 57 for b in name)


def edit_command(form: type, words: bytes) -> Command | None:
    """`WORD N TEXT`, or `WORD N` where the text is empty."""
    digits, _, text = words.partition(b" ")
    line = unless_short_numeral(digits)
    return None if line is None else form(line, text)


def known_command(words: bytes) -> Command | None:
    """What stands behind a name and its space, where it is one of the five commands."""
    if words in (b"show", b"export"):
        return Show() if words == b"show" else Export()
    word, rest = words[:4], words[4:]
    if word in (b"put ", b"set "):
        return edit_command(Put if word == b"put " else Set, rest)
    if word == b"cut ":
        start, upto = (unless_short_numeral(digits) for digits in (rest.split(b" ") + [b""])[:2])
        return None if start is None or upto is None or rest.count(b" ") != 1 else Cut(start, upto)
    return None


def command_of(tail: bytes) -> Command:
    """What stands behind a name: a space and one of the commands, or else it is a bad command."""
    known = known_command(tail[1:]) if tail else None
    return Bad() if known is None else known


def lines_of(text: bytes) -> list[bytes]:
    """The lines of the bytes: one carriage return at the end of a line is dropped."""
    lines = text.split(b"\n")
    if lines[-1] == b"":
        lines.pop()
    return [line[:-1] if line.endswith(b"\r") else line for line in lines]


def add_line(script: Script, line: bytes, number: int) -> None:
    """A line of a client, or its first fault behind the lines before it."""
    if len(line) > 1024:
        raise ScriptFault("TooLong", number)
    name = line.partition(b" ")[0]
    if not is_name(name):
        raise ScriptFault("NoName", number)
    if name not in script and len(script) >= 16:
        raise ScriptFault("TooManyClients", number)
    if len(script.get(name, [])) >= 8192:
        raise ScriptFault("TooManyCommands", number)
    script.setdefault(name, []).append(command_of(line[len(name):]))


def script_of(text: bytes) -> Script:
    """The clients by first appearance, each with its commands."""
    if len(text) > 1048576:
        raise ScriptFault("TooLarge")
    script: Script = {}
    for number, line in enumerate(lines_of(text), 1):
        add_line(script, line, number)
    return script


def script_fault_line(fault: ScriptFault) -> bytes:
    """The line that tells the fault: `script L WORD`, or `script WORD` where it is not a line's."""
    number = "" if fault.line is None else f"{fault.line} "
    return f"script {number}{fault.word}\n".encode()
