"""The meaning of expressions: the crate `scad_func`. The first fault is raised."""

from __future__ import annotations

from dataclasses import dataclass
from typing import Any, Callable, NamedTuple, Sequence

from .scad_ast import (
    ArgTerm, CallTerm, ChainTerm, ChildCountTerm, ChoiceTerm, IndexTerm, LinkTerm, ListTerm, MemberTerm, NameTerm, NumberTerm,
    ParamTerm, ParenTerm, PositionalTerm, PostfixTerm, RangeTerm, SpecialTerm, StatementTerms, SteppedRangeTerm, Term, TextTerm,
    TruthTerm, UnaryTerm, UndefTerm)
from .scad_builtin import builtin_of, builtin_value, is_left_out_function, takes_count
from .scad_definitions import (
    Arguments, SourceFunction, SourceModule, destination_of, functions_standing_in, modules_standing_in, no_arguments_of,
    parameter_names, with_argument)
from .scad_value import (
    Val, binary_of, element_count, index_of, member_of, range_of, stepped_range_of, truth_of, unary_of, undef,
    value_or_long_list, wants_right)
from .text_place import Fault, Place, Refusal

most_calls = 64
most_evaluations = 512
most_turns = 100000


class Counts:
    """The turns and the leaves so far, which go through an evaluation."""

    def __init__(self, turns: int = 0, leaves: int = 0) -> None:
        self.turns = turns
        self.leaves = leaves


@dataclass(eq=False)
class InnerScope:
    """A scope's variables, functions and modules, the call of a module whose scope it is, and the scope outside it."""

    __slots__ = ("variables", "functions", "modules", "call", "outer")
    variables: dict[bytes, Val]
    functions: dict[bytes, SourceFunction]
    modules: dict[bytes, SourceModule]
    call: Activation | None
    outer: InnerScope | None


Env = InnerScope
nothing_defined: dict[bytes, Any] = {}  # (no scope's definitions are changed)


class Activation(NamedTuple):
    """That of a call of a module of the source: the statements that are its children, and the scope of its caller."""

    children: StatementTerms
    caller: Env


def outcome_of_answer(at: Place, row: Callable[..., Any], *values: Any) -> Any:
    """What an operator or a built-in function answers, with its faults at a place."""
    try:
        return row(*values)
    except Refusal as found:
        raise Fault(found.kind, at) from None


def visible_variable(env: Env | None, name: bytes) -> Val | None:
    """The value of a variable, seen from a scope."""
    while env is not None:
        if name in env.variables:
            return env.variables[name]
        env = env.outer
    return None


def visible_function(env: Env | None, name: bytes) -> tuple[SourceFunction, Env] | None:
    """A function with the scope that it stands in."""
    while env is not None:
        if name in env.functions:
            return env.functions[name], env
        env = env.outer
    return None


def visible_module(env: Env | None, name: bytes) -> tuple[SourceModule, Env] | None:
    """A module with the scope that it stands in."""
    while env is not None:
        if name in env.modules:
            return env.modules[name], env
        env = env.outer
    return None


def activation_in(env: Env | None) -> Activation | None:
    """The activation of the innermost call of a module whose scope is this one or stands around it."""
    while env is not None and env.call is None:
        env = env.outer
    return None if env is None else env.call


def entered_scope(statements: StatementTerms, call: Activation | None, outer: Env | None) -> Env:
    """The scope of statements, before anything is bound in it."""
    return InnerScope({}, functions_standing_in(statements), modules_standing_in(statements), call, outer)


def turn(at: Place, counts: Counts) -> None:
    """One turn more."""
    if counts.turns >= most_turns:
        raise Fault("TooManyTurns", at)
    counts.turns += 1


def count_elements(at: Place, counts: Counts, values: tuple[Val, ...]) -> None:
    """Each element of a list that an expression gives, and the list itself, counts as a turn."""
    counts.turns += element_count(values)
    if counts.turns > most_turns:
        raise Fault("TooManyTurns", at)


@dataclass(eq=False)
class ExpressionContext:
    """Where an expression stands: the evaluations in one another that are left for what is one deeper, the calls that are left,
    the scope, the dynamic bindings of special names, and the counts."""

    __slots__ = ("evaluations", "calls_left", "env", "bindings", "counts")
    evaluations: int
    calls_left: int
    env: Env
    bindings: dict[bytes, Val]
    counts: Counts


def expression_with_calls_left(here: ExpressionContext, calls: int) -> ExpressionContext:
    """The same place with this many calls left."""
    return ExpressionContext(here.evaluations, calls, here.env, here.bindings, here.counts)


def in_scope(here: ExpressionContext, env: Env) -> ExpressionContext:
    """The same place in another scope."""
    return ExpressionContext(here.evaluations, here.calls_left, env, here.bindings, here.counts)


def with_more_bindings(here: ExpressionContext, dynamic: dict[bytes, Val]) -> ExpressionContext:
    """With more special names in front."""
    if not dynamic:
        return here
    return ExpressionContext(here.evaluations, here.calls_left, here.env, {**here.bindings, **dynamic}, here.counts)


def one_call_fewer(calls: int, at: Place) -> int:
    """One call deeper."""
    if calls == 0:
        raise Fault("TooDeep", at)
    return calls - 1


def only_values(args: Sequence[ArgTerm]) -> bool:
    """No argument has a name."""
    return all(isinstance(arg, PositionalTerm) for arg in args)


def each_argument(here: ExpressionContext, names: Sequence[bytes], args: Sequence[ArgTerm]) -> Arguments:
    """The arguments of a call, from the first on: each finds its destination and is then evaluated."""
    given, positional = no_arguments_of(len(names)), 0
    for arg in args:
        target = destination_of(names, positional, given, arg)
        if target is None:
            raise Fault("BadArgument", arg.at)
        with_argument(given, target, value_at_next_depth(here, True, arg.value))
        positional += isinstance(arg, PositionalTerm)
    return given


def parameter_value(here: ExpressionContext, param: ParamTerm, given: Val | None) -> Val:
    """A parameter's value: what it was given, its default, or undef."""
    if given is not None:
        return given
    return undef if param.value is None else value_at_next_depth(here, True, param.value)


def each_parameter(here: ExpressionContext, params: Sequence[ParamTerm], bound: Sequence[Val | None]) -> list[Val]:
    """The values of parameters, from the first on."""
    return [parameter_value(here, param, given) for param, given in zip(params, bound)]


def function_value(there: ExpressionContext, function: SourceFunction, given: Arguments) -> Val:
    """The value of a function of the source in a call: defaults are evaluated in the scope of its definition, its special
    arguments stand meanwhile."""
    inside = with_more_bindings(there, given.dynamic)
    values = each_parameter(inside, function.params, given.bound)
    scope = InnerScope(dict(zip(parameter_names(function.params), values)), nothing_defined, nothing_defined, None, there.env)
    return value_at_next_depth(in_scope(inside, scope), True, function.value)


def built_in_call_value(here: ExpressionContext, call: CallTerm) -> Val:
    """A call of a built-in function, whose faults stand at its name."""
    if call.name not in builtin_of:
        raise Fault("NotInProfile" if call.name in is_left_out_function else "UnknownFunction", call.at)
    if not only_values(call.args) or not takes_count(call.name, len(call.args)):
        raise Fault("BadArgument", call.at)
    values = [value_at_next_depth(here, True, arg.value) for arg in call.args]
    return outcome_of_answer(call.at, builtin_value, call.name, values)


def call_value(here: ExpressionContext, call: CallTerm) -> Val:
    """A call: the source's functions go before built-in ones, and one of these is one call deeper, where it is defined."""
    found = visible_function(here.env, call.name)
    if found is None:
        return built_in_call_value(here, call)
    function, scope = found
    given = each_argument(here, parameter_names(function.params), call.args)
    calls = one_call_fewer(here.calls_left, call.at)
    turn(call.at, here.counts)
    return function_value(in_scope(expression_with_calls_left(here, calls), scope), function, given)


def or_fault(value: Val | None, kind: str, at: Place) -> Val:
    """A value that is there, or a fault where none is."""
    if value is None:
        raise Fault(kind, at)
    return value


def list_value(here: ExpressionContext, term: ListTerm) -> Val:
    values = tuple([value_at_next_depth(here, True, item) for item in term.items])
    return outcome_of_answer(term.at, value_or_long_list, values)


def range_value(here: ExpressionContext, term: RangeTerm) -> Val:
    first = value_at_next_depth(here, True, term.start)
    last = value_at_next_depth(here, True, term.to)
    return outcome_of_answer(term.at, range_of, first, last)


def stepped_range_value(here: ExpressionContext, term: SteppedRangeTerm) -> Val:
    first = value_at_next_depth(here, True, term.start)
    by = value_at_next_depth(here, True, term.step)
    last = value_at_next_depth(here, True, term.to)
    return outcome_of_answer(term.at, stepped_range_of, first, by, last)


def each_suffix(here: ExpressionContext, value: Val, rest: Sequence[IndexTerm | MemberTerm]) -> Val:
    """The indexes and members behind a value."""
    for suffix in rest:
        if isinstance(suffix, IndexTerm):
            number = value_at_next_depth(here, True, suffix.number)
        else:
            number = or_fault(member_of.get(suffix.name), "NotInProfile", suffix.name_at)
        value = outcome_of_answer(suffix.at, index_of, value, number)
    return value


def each_link(here: ExpressionContext, value: Val, rest: Sequence[LinkTerm]) -> Val:
    """Operators of one level, from the left."""
    for link in rest:
        if wants_right(link.op, value):
            value = outcome_of_answer(link.at, binary_of, link.op, value, value_here(here, link.right))
        else:
            value = truth_of(value)
    return value


def choice_value(here: ExpressionContext, term: ChoiceTerm) -> Val:
    return value_at_next_depth(here, True, term.yes if truth_of(value_here(here, term.test)) else term.no)


rows_of_values: dict[type, Callable[[ExpressionContext, Any], Val]] = {
    NumberTerm: lambda here, term: term.n,
    TextTerm: lambda here, term: term.bytes,
    TruthTerm: lambda here, term: term.truth,
    UndefTerm: lambda here, term: undef,
    ChildCountTerm: lambda here, term: visible_variable(here.env, b"$children") or 0,
    SpecialTerm: lambda here, term: or_fault(here.bindings.get(term.name), "UnknownName", term.at),
    NameTerm: lambda here, term: or_fault(visible_variable(here.env, term.name), "UnknownName", term.at),
    CallTerm: call_value,
    ParenTerm: lambda here, term: value_at_next_depth(here, True, term.inner),
    ListTerm: list_value,
    RangeTerm: range_value,
    SteppedRangeTerm: stepped_range_value,
    PostfixTerm: lambda here, term: each_suffix(here, value_here(here, term.of), term.rest),
    UnaryTerm: lambda here, term: outcome_of_answer(term.at, unary_of, term.op, value_at_next_depth(here, False, term.of)),
    ChainTerm: lambda here, term: each_link(here, value_here(here, term.first), term.rest),
    ChoiceTerm: choice_value,
}


terms_without_parts = frozenset((NumberTerm, TextTerm, TruthTerm, UndefTerm, ChildCountTerm, SpecialTerm, NameTerm))


def value_here(here: ExpressionContext, term: Term) -> Val:
    """An expression at its own depth."""
    return rows_of_values[type(term)](here, term)


def value_at_next_depth(here: ExpressionContext, counts: bool, term: Term) -> Val:
    """What is one evaluation deeper, in the same place; its elements count, but for an operand of a unary operator."""
    if here.evaluations == 0:
        raise Fault("TooDeep", term.at)
    row = rows_of_values[type(term)]
    # (a term without parts evaluates nothing deeper)
    value = row(here, term) if type(term) in terms_without_parts else row(
        ExpressionContext(here.evaluations - 1, here.calls_left, here.env, here.bindings, here.counts), term)
    if counts and type(value) is tuple:
        count_elements(term.at, here.counts, value)
    return value
