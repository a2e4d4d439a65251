"""The definitions and the assignments of blocks, and which argument a parameter gets: the crates `scad_definitions` and
`scad_scope`."""

from __future__ import annotations

from dataclasses import dataclass
from typing import Callable, NamedTuple, Sequence, TypeVar

from .scad_ast import (
    ArgTerm, AssignmentTerm, BlockStatement, BodyTerm, FunctionTerm, ModuleTerm, NamedTerm, ParamTerm, PositionalTerm,
    SpecialArgTerm, SpecialAssignmentTerm, StatementTerm, StatementTerms, Term)
from .scad_value import Val
from .text_place import Place

A = TypeVar("A")


def once(found: Callable[[StatementTerms], A]) -> Callable[[StatementTerms], A]:
    """What a function tells of statements, worked out once for each of them."""
    name = found.__name__

    def told(statements: StatementTerms) -> A:
        try:
            return statements.known[name]
        except KeyError:
            return statements.known.setdefault(name, found(statements))
    return told


def in_order(statements: StatementTerms) -> list[StatementTerm]:
    """All statements; those of a bare block stand as if its braces weren't there."""
    return [it for statement in statements.items
            for it in (in_order(statement.statements) if isinstance(statement, BlockStatement) else [statement])]


class SourceFunction(NamedTuple):
    params: list[ParamTerm]
    value: Term


class SourceModule(NamedTuple):
    params: list[ParamTerm]
    body: BodyTerm


class SourceAssignment(NamedTuple):
    at: Place
    special: bool
    name: bytes
    value: Term


@once
def assignments_of(statements: StatementTerms) -> list[SourceAssignment]:
    """A block's assignments, each name once: the last one counts, at the place of the first."""
    found: dict[tuple[bool, bytes], SourceAssignment] = {}
    for it in in_order(statements):
        if isinstance(it, (AssignmentTerm, SpecialAssignmentTerm)):
            special = isinstance(it, SpecialAssignmentTerm)
            first = found.get((special, it.name), it)
            found[special, it.name] = SourceAssignment(first.at, special, it.name, it.value)
    return list(found.values())


@once
def functions_standing_in(statements: StatementTerms) -> dict[bytes, SourceFunction]:
    """The functions that stand in statements; of a name the last one counts."""
    return {it.name: SourceFunction(it.params, it.value) for it in in_order(statements) if isinstance(it, FunctionTerm)}


@once
def modules_standing_in(statements: StatementTerms) -> dict[bytes, SourceModule]:
    """The modules that stand in statements; of a name the last one counts."""
    return {it.name: SourceModule(it.params, it.body) for it in in_order(statements) if isinstance(it, ModuleTerm)}


def parameter_names(params: Sequence[ParamTerm]) -> list[bytes]:
    return [param.name for param in params]


def parameter_taken_by(names: Sequence[bytes], positional: int, arg: ArgTerm) -> int | None:
    """The number of the parameter that an argument takes after this many positional ones. A special argument takes none."""
    if isinstance(arg, PositionalTerm):
        return positional if positional < len(names) else None
    return names.index(arg.name) if isinstance(arg, NamedTerm) and arg.name in names else None


@dataclass(eq=False)
class Arguments:
    """What the arguments of a call give: to each parameter a value or nothing, and values to special names."""

    __slots__ = ("bound", "dynamic")
    bound: list[Val | None]
    dynamic: dict[bytes, Val]


def no_arguments_of(count: int) -> Arguments:
    """Before the first argument of this many parameters."""
    return Arguments([None] * count, {})


def destination_of(names: Sequence[bytes], positional: int, given: Arguments, arg: ArgTerm) -> int | bytes | None:
    """Where an argument goes, a parameter by its number or a special name: a surplus one, one of an unknown name and one whose
    destination has something already go nowhere."""
    if isinstance(arg, SpecialArgTerm):
        return None if arg.name in given.dynamic else arg.name
    number = parameter_taken_by(names, positional, arg)
    return None if number is None or given.bound[number] is not None else number


def with_argument(given: Arguments, target: int | bytes, value: Val) -> None:
    """One argument more."""
    if isinstance(target, bytes):
        given.dynamic[target] = value
    else:
        given.bound[target] = value


# The dynamic bindings with which a program begins: those of `$fn`, `$fa` and `$fs`.
first_bindings: dict[bytes, Val] = {b"fn": 0, b"fa": 12, b"fs": 2}
