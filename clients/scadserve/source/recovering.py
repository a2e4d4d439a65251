"""How a text is built that is not a program yet, as far as that can be told: for editors, while one types.

What is wrong with a statement is skipped, up to a place where another one seems to begin, and brackets that are open at the end
are taken as closed there.
"""

from __future__ import annotations

from typing import Sequence

from .structure import NoProgram, Reader, Structure
from .tokens import Token

_BEGIN = frozenset(b"module function if for intersection_for let each".split())


class _Recovering(Reader):
    """Reads statements, and goes on behind those that are none."""

    def __init__(self, tokens: Sequence[Token]) -> None:
        super().__init__(tokens)
        self.faults: list[NoProgram] = []
        self._blocks = 0

    def _statement(self) -> None:
        start, deep, blocks, scope, around = self._at, self._deep, self._blocks, self._scope, self._around
        try:
            super()._statement()
        except NoProgram as fault:
            self.faults.append(fault)
            self._at = self._next(start, fault.at, blocks > 0)
            self._close(scope)
            self._deep, self._blocks, self._around = deep, blocks, around
            self._forget()

    def _block(self) -> None:
        self._go_deeper()
        self._take(b"{")
        self._blocks += 1
        while self._at < len(self.found.tokens) and not self._is(b"}"):
            self._statement()
        self._blocks -= 1
        if self._at < len(self.found.tokens):
            self._take(b"}")
        else:
            self.faults.append(NoProgram(self._at))
        self._deep -= 1

    def _part(self) -> None:
        # (neither can stand in an expression: a statement without its end goes on into another one)
        if self._is(b"=", b"module"):
            self._fail()
        super()._part()

    def _next(self, start: int, at: int, is_in_block: bool) -> int:
        """Where to go on behind a statement that begins at a token and has its fault at one."""
        found = self.found.tokens
        for it in range(start + 1, len(found)):
            if self._begins(it, found[start].start):
                return it
            if it >= at and found[it].text == b";":
                return it + 1
            if it >= at and found[it].text in (b"{", b"}"):
                return it + (found[it].text == b"}" and not is_in_block)
        return len(found)

    def _begins(self, at: int, column: int) -> bool:
        """Whether a statement seems to begin at a token: it is the first of its line, and not further in than this column."""
        token, before = self.found.tokens[at], self.found.tokens[at - 1]
        return token.line > before.line and token.start <= column and (token.is_name() or token.text in _BEGIN)

    def _forget(self) -> None:
        """Drops the calls that were read where the next statement begins."""
        while self.found.calls and self.found.calls[-1].name >= self._at:
            self.found.calls.pop()


def structure_as_far(tokens: Sequence[Token]) -> tuple[Structure, list[NoProgram]]:
    """How the text of these tokens is built as far as that can be told, and where it is not a program; nowhere if it is one."""
    reader = _Recovering(tokens)
    return reader.program(), reader.faults
