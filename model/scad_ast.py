"""The syntax as plain trees: the crate `scad_ast`. The place of each form is that of its first token."""

from __future__ import annotations

from typing import Any, NamedTuple, Union

from .text_place import Place


class NumberTerm(NamedTuple):
    at: Place
    n: int


class TextTerm(NamedTuple):
    at: Place
    bytes: bytes


class TruthTerm(NamedTuple):
    at: Place
    truth: bool


class UndefTerm(NamedTuple):
    at: Place


class ChildCountTerm(NamedTuple):
    at: Place


class SpecialTerm(NamedTuple):
    at: Place
    name: bytes


class NameTerm(NamedTuple):
    at: Place
    name: bytes


class CallTerm(NamedTuple):
    at: Place
    name: bytes
    args: list[ArgTerm]


class ParenTerm(NamedTuple):
    at: Place
    inner: Term


class ListTerm(NamedTuple):
    at: Place
    items: list[Term]


class RangeTerm(NamedTuple):
    at: Place
    start: Term
    to: Term


class SteppedRangeTerm(NamedTuple):
    at: Place
    start: Term
    step: Term
    to: Term


class IndexTerm(NamedTuple):
    """An index behind an expression, at its `[`."""

    at: Place
    number: Term


class MemberTerm(NamedTuple):
    """A member behind an expression, at its `.`."""

    at: Place
    name: bytes
    name_at: Place


class PostfixTerm(NamedTuple):
    at: Place
    of: Term
    rest: list[IndexTerm | MemberTerm]


class UnaryTerm(NamedTuple):
    at: Place
    op: str
    of: Term


class LinkTerm(NamedTuple):
    """An operator at its own place, and its right side."""

    op: str
    at: Place
    right: Term


class ChainTerm(NamedTuple):
    at: Place
    first: Term
    rest: list[LinkTerm]


class ChoiceTerm(NamedTuple):
    at: Place
    test: Term
    mark: Place
    yes: Term
    no: Term


Term = Union[NumberTerm, TextTerm, TruthTerm, UndefTerm, ChildCountTerm, SpecialTerm, NameTerm, CallTerm, ParenTerm, ListTerm,
             RangeTerm, SteppedRangeTerm, PostfixTerm, UnaryTerm, ChainTerm, ChoiceTerm]


class NamedTerm(NamedTuple):
    at: Place
    name: bytes
    value: Term


class SpecialArgTerm(NamedTuple):
    at: Place
    name: bytes
    value: Term


class PositionalTerm(NamedTuple):
    at: Place
    value: Term


ArgTerm = Union[NamedTerm, SpecialArgTerm, PositionalTerm]


class ParamTerm(NamedTuple):
    """A parameter, with its default if it has one."""

    at: Place
    name: bytes
    value: Term | None


class BinderTerm(NamedTuple):
    """A variable of a loop, and what it goes over."""

    at: Place
    name: bytes
    values: Term


class ModifierTerm(NamedTuple):
    at: Place
    modifier: str


class StatementTerms:
    """Statements in order, and what was worked out of them so far."""

    def __init__(self, items: list[StatementTerm]) -> None:
        self.items = items
        self.known: dict[str, Any] = {}


class EmptyStatement(NamedTuple):
    at: Place


class BlockStatement(NamedTuple):
    at: Place
    statements: StatementTerms


class AssignmentTerm(NamedTuple):
    at: Place
    name: bytes
    value: Term


class SpecialAssignmentTerm(NamedTuple):
    at: Place
    name: bytes
    value: Term


class ModuleTerm(NamedTuple):
    at: Place
    name: bytes
    name_at: Place
    params: list[ParamTerm]
    body: BodyTerm


class FunctionTerm(NamedTuple):
    at: Place
    name: bytes
    name_at: Place
    params: list[ParamTerm]
    value: Term


class InstanceTerm(NamedTuple):
    """An instance, which is a statement too: its modifiers, and what stands behind them."""

    at: Place
    modifiers: list[ModifierTerm]
    core: CoreTerm


StatementTerm = Union[
    EmptyStatement, BlockStatement, AssignmentTerm, SpecialAssignmentTerm, ModuleTerm, FunctionTerm, InstanceTerm]


class IfTerm(NamedTuple):
    """A choice, with its `else` if it has one."""

    at: Place
    test: Term
    body: BodyTerm
    other: BodyTerm | None


class ForTerm(NamedTuple):
    """A loop, by its word `for` or `intersection_for`."""

    at: Place
    word: str
    binders: list[BinderTerm]
    body: BodyTerm


class ModuleCallTerm(NamedTuple):
    at: Place
    name: bytes
    args: list[ArgTerm]
    body: BodyTerm


CoreTerm = Union[IfTerm, ForTerm, ModuleCallTerm]


class BodyTerm(NamedTuple):
    """A body by its form, `;`, `{` or `instance`, and its statements; a single instance is one statement."""

    at: Place
    form: str
    statements: StatementTerms
