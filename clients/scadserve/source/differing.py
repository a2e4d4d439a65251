"""The forms that OpenSCAD takes for another solid, each with a function that gives its places: numbers of tokens."""

from __future__ import annotations

import ast
import math
from bisect import bisect_left
from collections import defaultdict
from functools import cached_property
from typing import Callable, Iterable, Iterator, Mapping, Sequence

from .structure import MODULE, VARIABLE, Assignment, Call, Definition, Instance, Scope, Span, Structure

CHECKS = (b"echo", b"assert")
_ROUND = (b"circle", b"cylinder")
#: OpenSCAD runs no loop over this many numbers, and takes no children of this many.
_LONG = 10_000
#: A name stands for a constant behind at most this many names.
_MOST_NAMES = 8


class Found:
    """What is found in a program: how it is built, and what that tells of names."""

    def __init__(self, structure: Structure) -> None:
        self.structure, self.tokens = structure, structure.tokens
        self._texts = [*(it.text for it in structure.tokens), b"", b""]
        self._reads: dict[int, frozenset[bytes]] = {}
        self._gives: dict[int, frozenset[bytes]] = {}

    def text(self, at: int) -> bytes:
        """The bytes of a token; none up to two behind the last."""
        return self._texts[at]

    @cached_property
    def _by_name(self) -> Mapping[tuple[str, bytes], list[Definition]]:
        named: dict[tuple[str, bytes], list[Definition]] = defaultdict(list)
        for it in self.structure.definitions:
            named[it.kind, self.text(it.name)].append(it)
        return named

    def meant(self, call: Call | None) -> Definition | None:
        """The definition of the source that a call means: of the innermost scope that has one, the last."""
        known = self._by_name.get((call.kind, self.text(call.name)), []) if call is not None else []
        around = [it for it in known if call is not None and it.scope.has(call.name)]
        return max(around, key=lambda it: (it.scope.first - it.scope.last, it.first)) if around else None

    def is_built_in(self, it: Instance | None, *names: bytes) -> bool:
        """Whether an instance has one of these names, and the source defines no module of it there."""
        return it is not None and self.text(it.core) in names and self.meant(it.call) is None

    def marks(self, it: Instance) -> list[bytes]:
        """The marks of an instance."""
        return [self.text(at) for at in range(it.first, it.core)]

    def is_check(self, it: Instance) -> bool:
        """Whether it is an `echo` or an `assert`."""
        return self.is_built_in(it, *CHECKS)

    def is_drawn(self, it: Instance) -> bool:
        """Whether it is neither a check nor left out by a mark of its own."""
        return not self.is_check(it) and not {b"*", b"%"} & set(self.marks(it))

    def children(self, it: Instance) -> list[Instance]:
        """The children of an instance: those that are checks, or that a mark leaves out, are none."""
        return list(filter(self.is_drawn, it.children))

    def arguments(self, call: Call) -> Iterator[tuple[bytes, Span]]:
        """The arguments of a call: the name of each, empty where it has none, and the tokens of its value."""
        for it in call.arguments:
            is_named = self.tokens[it.first].is_name() and self.text(it.first + 1) == b"="
            yield (self.text(it.first), Span(it.first + 2, it.last)) if is_named else (b"", it)

    def special_arguments(self, call: Call | None) -> dict[bytes, int]:
        """The special names that a call gives, each with its token."""
        given = call.arguments if call is not None else []
        return {
            self.text(it.first): it.first
            for it in given if self.tokens[it.first].is_special() and self.text(it.first + 1) == b"="
        }

    @cached_property
    def assigned(self) -> Mapping[int, list[Assignment]]:
        """The assignments of each scope, by its identity."""
        found: dict[int, list[Assignment]] = defaultdict(list)
        for it in [*self.structure.assignments, *self.structure.inner_assignments]:
            found[id(it.scope)].append(it)
        return found

    def assignments_of(self, scope: Scope | None) -> list[Assignment]:
        """The assignments of a scope."""
        return self.assigned.get(id(scope), [])

    def variables(self, span: Span) -> Iterator[int]:
        """The tokens of variables that are read in a span."""
        roles = self.structure.roles
        return (at for at in range(span.first, span.last + 1) if roles.get(at) == VARIABLE and self.text(at + 1) != b"=")

    @cached_property
    def _calls(self) -> Sequence[Call]:
        return sorted(self.structure.calls, key=lambda it: it.name)

    def calls_in(self, span: Span) -> list[Call]:
        """The calls whose names stand in a span."""
        names = self._call_names
        return list(self._calls[bisect_left(names, span.first) : bisect_left(names, span.last + 1)])

    @cached_property
    def _call_names(self) -> Sequence[int]:
        return [it.name for it in self._calls]

    def reads(self, it: Definition) -> frozenset[bytes]:
        """The special names that a definition may read, in what it calls too; `$fn` where it makes a round shape."""
        return self._closed(it, self._reads, self._own_reads)

    def gives(self, it: Definition) -> frozenset[bytes]:
        """The special names that a definition may assign, or give to calls with children, in what it calls too."""
        return self._closed(it, self._gives, self._own_gives)

    def _own_reads(self, it: Definition) -> set[bytes]:
        own = {self.text(at) for at in self.variables(Span(it.name, it.last)) if self.tokens[at].is_special()}
        rounds = (call for call in self.calls_in(it.body) if self.text(call.name) in _ROUND)
        return own | ({b"$fn"} if any(b"$fn" not in self.special_arguments(call) for call in rounds) else set())

    def _own_gives(self, it: Definition) -> set[bytes]:
        names = self._inner_names[bisect_left(self._inner_names, it.body.first) : bisect_left(self._inner_names, it.body.last)]
        own = {self.text(at) for at in names if self.tokens[at].is_special()}
        for call in self.calls_in(it.body):
            instance = self._instances.get(call.name)
            # (what a shape or a function is given reaches no children)
            if instance is not None and (instance.children or self.meant(call) is not None):
                own |= set(self.special_arguments(call))
        return own

    @cached_property
    def _inner_names(self) -> Sequence[int]:
        return [it.name for it in self.structure.inner_assignments]

    @cached_property
    def _instances(self) -> Mapping[int, Instance]:
        """The instances by their cores."""
        return {it.core: it for it in self.structure.instances}

    def _closed(
        self, it: Definition, known: dict[int, frozenset[bytes]], own: Callable[[Definition], set[bytes]]
    ) -> frozenset[bytes]:
        """What a definition and those that it calls have of their own."""
        if id(it) not in known:
            reached, found = [it], own(it)
            seen = {id(it)}
            for at in reached:
                for call in self.calls_in(Span(at.name, at.last)):
                    called = self.meant(call)
                    if called is not None and id(called) not in seen:
                        seen.add(id(called))
                        reached.append(called)
                        found |= own(called)
            known[id(it)] = frozenset(found)
        return known[id(it)]

    @cached_property
    def calls_to(self) -> Mapping[int, list[Instance]]:
        """The instances that call a module of the source, by its definition's identity."""
        found: dict[int, list[Instance]] = defaultdict(list)
        for it in self.structure.instances:
            meant = self.meant(it.call)
            if meant is not None:
                found[id(meant)].append(it)
        return found

    def module_around(self, at: int) -> Definition | None:
        """The innermost module of the source in whose body a token stands."""
        around = [it for it in self.structure.definitions if it.kind == MODULE and it.body.has(at)]
        return min(around, key=lambda it: it.body.last - it.body.first) if around else None

    @cached_property
    def _left_out(self) -> list[Span]:
        """What `*` and `%` leave out, without the mark."""
        marked = (it for it in self.structure.instances if {b"*", b"%"} & set(self.marks(it)))
        return [Span(it.first + 1, it.last) for it in marked]

    def is_left_out(self, at: int) -> bool:
        """Whether a token stands in what a mark leaves out."""
        return any(it.has(at) for it in self._left_out)

    @cached_property
    def _assignments(self) -> Mapping[int, Assignment]:
        """All assignments, by the tokens of their names."""
        return {it.name: it for it in [*self.structure.assignments, *self.structure.inner_assignments]}

    def _assigned_to(self, at: int) -> Span | None:
        """The tokens that a variable is assigned, in the innermost scope that has it; None where it is a parameter or one of a
        loop, or where the token is none."""
        name = (VARIABLE, self.text(at))
        scope = self.structure.places.get(at) if self.structure.roles.get(at) == VARIABLE else None
        while scope is not None and name not in scope.bound:
            scope = scope.around
        assigned = self._assignments.get(scope.bound[name][-1]) if scope is not None else None
        # (a special name has the value of the call)
        is_other = assigned is None or self.tokens[at].is_special()
        return None if is_other or assigned is None else Span(assigned.name + 2, assigned.last - 1)

    def constant(self, span: Span) -> Span:
        """The tokens of a value: those that a variable is assigned, where they are its name alone."""
        for _ in range(_MOST_NAMES):
            assigned = self._assigned_to(span.first) if span.first == span.last else None
            if assigned is None:
                break
            span = assigned
        return span

    def numbers(self, span: Span) -> object:
        """The value of tokens that write a number or a list, or are a name that is assigned one; in a list names may stand for
        numbers. None where they write something else."""
        span = self.constant(span)
        texts: list[bytes] = []
        for at in range(span.first, span.last + 1):
            item = self.constant(Span(at, at))
            # (a number has a sign at most)
            texts += [self.text(it) for it in range(item.first, item.last + 1)] if item.last <= item.first + 1 else [b"?"]
        if not all(it in (b"[", b"]", b",", b"-") or it.isdigit() for it in texts):
            return None
        try:
            value: object = ast.literal_eval(b" ".join(texts).decode())
        except (SyntaxError, ValueError):
            return None
        return value

    def is_of_join(self, it: Instance) -> bool:
        """Whether an instance that gives nothing changes what the join around it gives, were it no child."""
        join = it.around
        if join is None or not self.is_built_in(join, b"intersection_for", b"intersection", b"difference"):
            return False
        children = self.children(join)
        if self.text(join.core) == b"intersection_for":
            return True
        return len(children) > 1 and (self.text(join.core) == b"intersection" or children[0] is it)


def _if_child(found: Found) -> Iterator[int]:
    by_index = {id(found.module_around(it.core)) for it, _ in _joined_by_index(found)}
    for it in found.structure.instances:
        if found.text(it.core) == b"if" and not it.has_else:
            meant = found.meant(it.around.call) if it.around is not None else None
            if found.is_of_join(it) or (meant is not None and id(meant) in by_index):
                yield it.core


def _joined_by_index(found: Found) -> Iterator[tuple[Instance, Span]]:
    """The children that are taken by an index and intersected, or subtracted from, with that index."""
    for it in found.structure.instances:
        if found.is_built_in(it, b"children") and it.call and it.call.arguments and found.is_of_join(it):
            yield it, it.call.arguments[0]


def _is_missing(found: Found, it: Instance) -> bool:
    """Whether it is a call of `children` in no module, or one whose index some call has no child for: none has one for an
    index below 0, and a call without children has none for any. (Of a list of indexes OpenSCAD makes a child.)"""
    if it.call is None or not found.is_built_in(it, b"children"):
        return False
    module = found.module_around(it.core)
    if module is None or not it.call.arguments:
        return module is None
    given = found.constant(it.call.arguments[0])
    index = found.numbers(given)
    least = index if isinstance(index, int) else 0
    counts = [len(found.children(call)) for call in found.calls_to.get(id(module), [])]
    return found.text(given.first) != b"[" and any(count <= least or least < 0 for count in counts)


def _missing_child(found: Found) -> Iterator[int]:
    for it in found.structure.instances:
        if found.is_of_join(it) and _is_missing(found, it):
            yield it.core


def _intersection_for(found: Found) -> Iterator[int]:
    for it in found.structure.instances:
        if found.text(it.core) == b"intersection_for" and len(found.children(it)) > 1:
            yield it.core


def _long_range(found: Found) -> Iterator[int]:
    for it in found.structure.instances:
        spans: Sequence[Span] = []
        if found.text(it.core) in (b"for", b"intersection_for") and it.scope is not None:
            spans = [Span(it.core, it.scope.first)]
        elif found.is_built_in(it, b"children") and it.call is not None:
            spans = [value for _, value in found.arguments(it.call)]
        for span in spans:
            places = [at for at in range(span.first, span.last) if found.text(at) == b"["]
            yield from (at for at in [*places, *found.variables(span)] if _length(found, at) >= _LONG)


def _length(found: Found, at: int) -> int:
    """How many numbers a range has that begins at a bracket, or that a variable is assigned there, and is of numbers; 0 where
    it is another one."""
    first = found.constant(Span(at, at)).first
    if found.text(first) != b"[":
        return 0
    end = next((it for it in range(first, len(found.tokens)) if found.text(it) == b"]"), first)
    bounds = [first, *(it for it in range(first, end) if found.text(it) == b":"), end]
    parts = [found.numbers(Span(one + 1, other - 1)) for one, other in zip(bounds, bounds[1:])]
    numbers = [it for it in parts if isinstance(it, int)]
    if len(parts) not in (2, 3) or len(numbers) < len(parts):
        return 0
    start, step, last = (numbers[0], 1, numbers[1]) if len(numbers) == 2 else numbers
    return (last - start) // step + 1 if step else 0


def _call_braces(found: Found) -> Iterator[int]:
    for it in found.structure.instances:
        if it.call is not None and (found.meant(it.call) is not None or found.is_built_in(it, b"linear_extrude")):
            own = {found.text(one.name) for one in found.assignments_of(it.scope)}
            for _, value in found.arguments(it.call):
                yield from (at for at in found.variables(value) if found.text(at) in own)


def _extrude_center(found: Found) -> Iterator[int]:
    for it in found.structure.instances:
        if found.is_built_in(it, b"linear_extrude") and it.call is not None:
            plain = [value for name, value in found.arguments(it.call) if not name]
            if len(plain) > 1 and (plain[1].first != plain[1].last or found.text(plain[1].first) != b"false"):
                yield plain[1].first


def _children_counted(found: Found) -> Iterator[int]:
    for it in found.structure.instances:
        is_counted = found.is_check(it) or (b"%" in found.marks(it) and b"*" not in found.marks(it))
        module = found.meant(it.around.call) if it.around is not None else None
        if is_counted and module is not None and _counts_children(found, module):
            yield it.first


def _counts_children(found: Found, module: Definition) -> bool:
    calls = (it for it in found.calls_in(module.body) if found.text(it.name) == b"children")
    return any(found.text(at) == b"$children" for at in range(module.body.first, module.body.last + 1)) or any(
        it.arguments for it in calls
    )


def _special_to_join(found: Found) -> Iterator[int]:
    for it in found.structure.instances:
        if found.is_built_in(it, b"union", b"difference", b"intersection") and it.children:
            yield from found.special_arguments(it.call).values()


def _marked_check(found: Found) -> Iterator[int]:
    for it in found.structure.instances:
        is_none = found.is_check(it) or (found.text(it.core) == b"if" and not it.has_else) or _is_missing(found, it)
        if is_none and _selects(found, it) and not _is_by_index(found, it):
            yield next(at for at in range(it.first, it.core) if found.text(at) == b"!")


def _marked_index(found: Found) -> Iterator[int]:
    for it in found.structure.instances:
        if _is_by_index(found, it) and b"*" not in found.marks(it):
            if b"%" in found.marks(it):
                yield it.first
            elif _selects(found, it) and not _is_all(found, it):
                yield next(at for at in range(it.first, it.core) if found.text(at) == b"!")


def _selects(found: Found, it: Instance) -> bool:
    """Whether an instance is marked `!`, and none around it is, whose mark counts in its place."""
    return b"!" in found.marks(it) and not _is_under_mark(found, it)


def _is_under_mark(found: Found, it: Instance) -> bool:
    """Whether an instance around it is marked `!`."""
    around = it.around
    while around is not None and b"!" not in found.marks(around):
        around = around.around
    return around is not None


def _is_by_index(found: Found, it: Instance) -> bool:
    """Whether it is a call of `children` with an index, in a module: in OpenSCAD it is that child itself, with the child's own
    marks. (A list or a range of indexes makes a node that has the marks of the call.)"""
    given = it.call.arguments if it.call is not None and found.is_built_in(it, b"children") else []
    return bool(given) and found.text(found.constant(given[0]).first) != b"[" and found.module_around(it.core) is not None


def _is_all(found: Found, it: Instance) -> bool:
    """Whether nothing is drawn but an instance: it is all of the program or of its module's body, and so is the only call of
    this module."""
    seen: list[Definition | None] = []
    while it.around is None:
        module = found.module_around(it.core)
        beside = [other for other in found.structure.instances if other.around is None and found.is_drawn(other)]
        is_alone = all(other is it or found.module_around(other.core) is not module for other in beside)
        calls = found.calls_to.get(id(module), [])
        if module is None or module in seen or not is_alone or len(calls) != 1:
            return module is None and is_alone
        seen.append(module)
        it = calls[0]
    return False


def _marked_background(found: Found) -> Iterator[int]:
    marked = [it for it in found.structure.instances if b"!" in found.marks(it) and b"*" not in found.marks(it)]
    for it in found.structure.instances:
        if marked and b"%" in found.marks(it):
            spans = _evaluated_by(found, it)
            if any(span.has(other.core) for span in spans for other in marked):
                yield it.first


def _evaluated_by(found: Found, it: Instance) -> list[Span]:
    """What may be evaluated with an instance: the modules that it calls, and what `children` in it stands for, too."""
    spans = [Span(it.first, it.last)]
    for span in spans:
        for call in found.calls_in(span):
            meant = found.meant(call)
            more = [meant.body] if meant is not None else []
            if meant is None and found.text(call.name) == b"children":
                more = [Span(one.first, one.last) for one in found.calls_to.get(id(found.module_around(call.name)), [])]
            spans += (one for one in more if not any((one.first, one.last) == (known.first, known.last) for known in spans))
    return spans


def _polygon_twice(found: Found) -> Iterator[int]:
    for it in found.structure.instances:
        if found.is_built_in(it, b"polygon") and it.call is not None:
            given = [found.numbers(value) for name, value in found.arguments(it.call) if name in (b"", b"points")]
            # (one of paths is refused here)
            is_plain = len(given) == 1 and all(name != b"paths" for name, _ in found.arguments(it.call))
            if is_plain and isinstance(given[0], list) and _turns(given[0]) > 1:
                yield it.core


def _turns(points: Sequence[object]) -> int:
    """How often a polygon goes round, by its outer angles; 0 where these are no points."""
    corners = [it for it in points if isinstance(it, list) and len(it) == 2 and all(isinstance(number, int) for number in it)]
    if len(corners) != len(points) or len(corners) < 3:
        return 0
    ways = [(v[0] - u[0], v[1] - u[1]) for u, v in zip(corners, [*corners[1:], corners[0]])]
    angles = (math.atan2(a * d - b * c, a * c + b * d) for (a, b), (c, d) in zip(ways, [*ways[1:], ways[0]]))
    return abs(round(sum(angles) / (2 * math.pi)))


def _unused_points(found: Found) -> Iterator[int]:
    for it in found.structure.instances:
        if found.is_built_in(it, b"polyhedron") and it.call is not None and _is_in_hull(found, it):
            given = dict(zip((b"points", b"faces"), (value for name, value in found.arguments(it.call) if not name)))
            given.update({name: value for name, value in found.arguments(it.call) if name})
            points, faces = (found.numbers(given[name]) if name in given else None for name in (b"points", b"faces"))
            if isinstance(points, list) and isinstance(faces, list):
                used = {at for face in faces if isinstance(face, list) for at in face}
                if not used >= set(range(len(points))):
                    yield it.core


def _is_in_hull(found: Found, it: Instance) -> bool:
    around = it.around
    while around is not None and not found.is_built_in(around, b"hull"):
        around = around.around
    return around is not None


def _default_special(found: Found) -> Iterator[int]:
    for call in found.structure.calls:
        given = found.special_arguments(call)
        meant = found.meant(call) if given else None
        if meant is not None:
            named = {name for name, _ in found.arguments(call)}
            plain = sum(1 for name, _ in found.arguments(call) if not name)
            missing = [at for number, at in enumerate(meant.parameters) if number >= plain and found.text(at) not in named]
            read = {name for at in missing for name in _read_by(found, _default(found, meant, at))}
            yield from (at for name, at in given.items() if name in read)


def _default(found: Found, it: Definition, at: int) -> Span:
    """The tokens of a parameter's default; none where it has none."""
    later = [other for other in it.parameters if other > at]
    end = later[0] - 2 if later else it.body.first - 2
    return Span(at + 2, end) if found.text(at + 1) == b"=" else Span(at, at - 1)


def _read_by(found: Found, span: Span) -> set[bytes]:
    """The special names that an expression reads, also by functions that it calls."""
    own = {found.text(at) for at in found.variables(span) if found.tokens[at].is_special()}
    for call in found.calls_in(span):
        meant = found.meant(call)
        own |= found.reads(meant) if meant is not None else set()
    return own


def _braces_special(found: Found) -> Iterator[int]:
    for it in found.structure.instances:
        meant = found.meant(it.call)
        assigned = found.assignments_of(it.scope) if it.call is not None else []
        given = found.special_arguments(it.call)
        for one in assigned:
            name = found.text(one.name)
            if found.tokens[one.name].is_special() and (name in given or (meant is not None and name in found.reads(meant))):
                yield one.name
            if meant is not None:
                value = Span(one.name + 2, one.last)
                yield from (at for at in found.variables(value) if found.text(at) in found.gives(meant))


def _special_behind(found: Found) -> Iterator[int]:
    for call in found.structure.calls:
        for name, at in found.special_arguments(call).items():
            before = (value for _, value in found.arguments(call) if value.first < at)
            yield from (token for value in before for token in found.variables(value) if found.text(token) == name)


def _children_special(found: Found) -> Iterator[int]:
    for it in found.structure.instances:
        if found.is_built_in(it, b"children"):
            yield from found.special_arguments(it.call).values()


def _range_equality(found: Found) -> Iterator[int]:
    opened: list[tuple[int, bool]] = []
    ranges: dict[int, int] = {}
    for at, it in enumerate(found.tokens):
        if it.text in (b"(", b"[", b"{"):
            opened.append((at, False))
        elif it.text == b":" and opened and found.text(opened[-1][0]) == b"[":
            opened[-1] = (opened[-1][0], True)
        elif it.text in (b")", b"]", b"}") and opened:
            first, is_range = opened.pop()
            if is_range and it.text == b"]":
                ranges[first] = at
    lasts = set(ranges.values())
    for at, it in enumerate(found.tokens):
        if it.text in (b"==", b"!=") and (at - 1 in lasts or at + 1 in ranges):
            yield at


def _text_member(found: Found) -> Iterator[int]:
    texts, others = _names_of_texts(found)
    for at in range(len(found.tokens) - 2):
        if found.text(at + 1) == b"." and found.text(at + 2) in (b"x", b"y", b"z"):
            name = found.text(at)
            is_name = found.structure.roles.get(at) == VARIABLE and name in texts and name not in others
            if found.tokens[at].kind == "text" or is_name:
                yield at + 1


def _names_of_texts(found: Found) -> tuple[set[bytes], set[bytes]]:
    """The names that are assigned a text, and those that are assigned or stand for something else."""
    texts: set[bytes] = set()
    others = {found.text(at) for it in found.structure.definitions for at in it.parameters}
    for it in [*found.structure.assignments, *found.structure.inner_assignments]:
        is_text = it.last == it.name + 3 and found.tokens[it.name + 2].kind == "text"
        (texts if is_text else others).add(found.text(it.name))
    for instance in found.structure.instances:
        if instance.call is None and instance.scope is not None:
            span = range(instance.core, instance.scope.first)
            others |= {
                found.text(at) for at in span if found.text(at + 1) == b"=" and found.structure.roles.get(at) == VARIABLE
            }
    return texts, others


def _named_twice(found: Found) -> Iterator[int]:
    twice: dict[int, set[bytes]] = {}
    for it in found.structure.definitions:
        names = [found.text(at) for at in it.parameters]
        twice[id(it)] = {name for name in names if names.count(name) > 1} if len(set(names)) < len(names) else set()
    if any(twice.values()):
        for call in found.structure.calls:
            names_of = twice.get(id(found.meant(call)), set())
            yield from (value.first - 2 for name, value in found.arguments(call) if name in names_of)


def _children_outside(found: Found) -> Iterator[int]:
    places = [at for at, it in enumerate(found.tokens) if it.text == b"$children"]
    bodies = [it.body for it in found.structure.definitions if it.kind == MODULE] if places else []
    yield from (at for at in places if not any(it.has(at) for it in bodies))


#: The places of each form, by its name.
FORMS: Mapping[str, Callable[[Found], Iterable[int]]] = {
    "if-child": _if_child,
    "missing-child": _missing_child,
    "intersection-for": _intersection_for,
    "long-range": _long_range,
    "call-braces": _call_braces,
    "extrude-center": _extrude_center,
    "children-counted": _children_counted,
    "special-to-join": _special_to_join,
    "marked-check": _marked_check,
    "marked-index": _marked_index,
    "marked-background": _marked_background,
    "polygon-twice": _polygon_twice,
    "unused-points": _unused_points,
    "default-special": _default_special,
    "braces-special": _braces_special,
    "special-behind": _special_behind,
    "children-special": _children_special,
    "range-equality": _range_equality,
    "text-member": _text_member,
    "named-twice": _named_twice,
    "children-outside": _children_outside,
}
