"""What a source means, and what a script is answered, but for the faces of a solid: the crates `script_server`, `reply_text`
and `script_service`."""

from __future__ import annotations

import sys
import threading
from functools import lru_cache
from typing import Callable, Sequence, TypeVar, Union

from .csg_tree import Tree
from .edit_session import State, accept, refusal, source_of
from .run_words import Demo, chooses, usage_line
from .scad_design import DesignTree, Placing
from .scad_grammar import whole_program
from .scad_lexer import lexes
from .scad_meaning import design_of
from .script_reader import Command, Export, ScriptFault, Show, script_fault_line, script_of
from .text_place import Fault

A = TypeVar("A")
Reply = bytes
Exporter = Callable[[bytes], Reply]


def with_deep_stack(work: Callable[[], A]) -> A:
    """Does work in which calls may be very deep in one another: loops have any number of variables."""
    outcome: list[A] = []
    failed: list[BaseException] = []

    def attempt() -> None:
        try:
            outcome.append(work())
        except BaseException as fault:
            failed.append(fault)

    limit, size = sys.getrecursionlimit(), threading.stack_size(1 << 29)
    sys.setrecursionlimit(1 << 20)
    try:
        thread = threading.Thread(target=attempt)
        thread.start()
        thread.join()
    finally:
        sys.setrecursionlimit(limit)
        threading.stack_size(size)
    if failed:
        raise failed[0]
    return outcome[0]


def means_design(half: bool, source: bytes) -> DesignTree:
    """The design of the one program that a source writes; its first fault is raised."""
    return design_of(half, whole_program(lexes(source)))


def means(half: bool, source: bytes) -> Union[Tree, Fault]:
    """The tree that a source means, or its first fault: of its text, or else of the program that it writes."""
    try:
        return Placing().design(means_design(half, source))
    except Fault as fault:
        return fault


def source_fault_words(fault: Fault) -> Reply:
    """How a fault is told: its line, its column and its word."""
    return f" fault {fault.at.line}:{fault.at.column} {fault.kind}\n".encode()


@lru_cache(maxsize=1 << 10)
def export_reply(half: bool, source: bytes) -> Reply:
    """What an export is answered: its fault, or that it is a solid. (Many exports of a script are of one source.)"""
    meaning = means(half, source)
    return source_fault_words(meaning) if isinstance(meaning, Fault) else b" solid\n"


def answer(exports: Exporter, s: State, command: Command) -> Reply:
    """What a command is answered in a state, which is afterwards the state after it."""
    why = refusal(s, command)
    if why is not None:
        return f" refused {why}\n".encode()
    accept(s, command)
    if isinstance(command, Export):
        return exports(source_of(s))
    if isinstance(command, Show):
        return f" text {len(s.lines)}\n".encode() + source_of(s)
    return f" ok {len(s.lines)}\n".encode()


def client_text(exports: Exporter, name: bytes, commands: Sequence[Command]) -> bytes:
    """A client's part of the output: its name, and its replies numbered from 1."""
    s = State()
    replies = [str(number).encode() + answer(exports, s, command) for number, command in enumerate(commands, 1)]
    return b"== " + name + b"\n" + b"".join(replies)


def output(half: bool, script: bytes) -> tuple[str, bytes]:
    """The status of a run over a script, and what it writes."""
    try:
        clients = script_of(script)
    except ScriptFault as fault:
        return "BadScript", script_fault_line(fault)
    texts = [client_text(lambda source: export_reply(half, source), name, commands) for name, commands in clients.items()]
    return "Done", b"".join(texts)


def client_lines(n: int, client: int) -> str:
    """Two lines of source and the export of a client of the demonstration, of n parts, whose depth goes by the client's
    number."""
    return (f"c{client} put 1 module part(i) {{ translate([7*i, 0, 0]) difference() {{ cube(4); translate([1, 1, 0]) "
            f"cube([2, 2, {1 + client % 3}]); }} }}\nc{client} put 2 for (i = [1 : {n}]) part(i);\nc{client} export\n")


def demo_script(n: int) -> bytes:
    """The script of a demonstration: eight clients, each with one module and a loop over it."""
    return "".join(client_lines(n, client) for client in range(1, 9)).encode()


def served(words: Sequence[str], script: bytes) -> tuple[str, bytes] | None:
    """The status of a call and what it writes, but for the tally, or none of the demonstration, which writes of faces alone."""
    settings = chooses(words)
    if settings is None:
        return "BadWords", usage_line
    return None if isinstance(settings, Demo) else output(settings.half, script)
