"""How a source is built: its scopes, what they define and assign, and what each name stands for.

Statements are read as docs/SPECIFICATION.md has them, and expressions by their brackets alone, since only names matter here.
The server reads all of it again: what is not a program is its fault to tell.
"""

from __future__ import annotations

from typing import NoReturn, Sequence

from .tokens import Token

CLOSING = {b"(": b")", b"[": b"]", b"{": b"}"}
MOST_DEEP = 128  # (the server takes 64)

#: What a name stands for at its place.
MODULE, FUNCTION, VARIABLE, ARGUMENT, PARAMETER = "module", "function", "variable", "argument", "parameter"


class NoProgram(Exception):
    """No program goes on with the token of this number, for this word."""

    def __init__(self, at: int, word: str = "Expected") -> None:
        super().__init__(at)
        self.at, self.word = at, word


class Span:
    """Tokens from a first to a last number."""

    def __init__(self, first: int, last: int) -> None:
        self.first, self.last = first, last

    def has(self, at: int) -> bool:
        """Whether a token is one of these."""
        return self.first <= at <= self.last


class Definition(Span):
    """A module or a function: the numbers of its name and its parameters, its body or value, and the scope that it stands in
    and its own, which has the parameters."""

    def __init__(self, span: Span, kind: str, name: int, parameters: list[int], body: Span, scope: Scope, own: Scope) -> None:
        super().__init__(span.first, span.last)
        self.kind, self.name, self.parameters, self.body, self.scope, self.own = kind, name, parameters, body, scope, own


class Assignment(Span):
    """An assignment: the number of its name, and the scope that it stands in."""

    def __init__(self, first: int, last: int, name: int, scope: Scope) -> None:
        super().__init__(first, last)
        self.name, self.scope = name, scope


class Call(Span):
    """A name with arguments in brackets, behind which a module's body is not part of it: each argument, and its name."""

    def __init__(self, first: int, last: int, kind: str, name: int) -> None:
        super().__init__(first, last)
        self.kind, self.name = kind, name
        self.arguments: list[Span] = []


class Scope(Span):
    """A scope, the one around it, and what it binds: of each kind and name the numbers of the tokens, in order. A parameter is
    a variable here. So are the variables of a loop, each in a scope of its own, in which those behind it are and the body."""

    def __init__(self, at: int, around: Scope | None, before: int | None, is_function: bool) -> None:
        super().__init__(at, at)
        self.around = around
        #: Of an assignment's value: it sees no variable that the scope around it binds from this token on.
        self.before = before
        #: Of a function: it may be called while the scope around it has not bound all of its variables.
        self.is_function = is_function
        self.bound: dict[tuple[str, bytes], list[int]] = {}


class Instance(Span):
    """An instance: its marks stand before its core, which is its name or keyword. The instance around it, its arguments, the
    scope of its first body, and the instances in its bodies that stand in no definition there."""

    def __init__(self, at: int, around: Instance | None) -> None:
        super().__init__(at, at)
        self.core, self.around = at, around
        self.call: Call | None = None
        self.scope: Scope | None = None
        self.has_else = False
        self.children: list[Instance] = []


class Structure:
    """What is found in a source."""

    def __init__(self, tokens: Sequence[Token]) -> None:
        self.tokens = tokens
        self.roles: dict[int, str] = {}
        #: In which scope each name is bound or looked for, but for names of arguments.
        self.places: dict[int, Scope] = {}
        self.scopes: list[Scope] = []
        self.definitions: list[Definition] = []
        #: Those of the program's own scope.
        self.assignments: list[Assignment] = []
        #: Those of all other scopes.
        self.inner_assignments: list[Assignment] = []
        self.instances: list[Instance] = []
        self.calls: list[Call] = []

    def text(self, at: int) -> bytes:
        """The bytes of a token, none behind the last."""
        return self.tokens[at].text if at < len(self.tokens) else b""

    def outer(self) -> list[Definition]:
        """The definitions of the program's own scope."""
        return [it for it in self.definitions if it.scope.around is None]

    def defined_at(self, call: Call) -> Definition | None:
        """The definition that a call means: of the innermost scope that has one, the last."""
        name = self.text(call.name)
        known = [it for it in self.definitions if it.kind == call.kind and self.text(it.name) == name]
        around = [it for it in known if it.scope.has(call.name)]
        return max(around, key=lambda it: (it.scope.first - it.scope.last, it.first)) if around else None


class Reader:
    """Reads statements from a place in the tokens."""

    def __init__(self, tokens: Sequence[Token]) -> None:
        self.found = Structure(tokens)
        self._at = 0
        self._deep = 0
        self._scope = self._opened(None)
        self._around: Instance | None = None

    def program(self) -> Structure:
        """How the program of these tokens is built. Raises NoProgram."""
        while self._at < len(self.found.tokens):
            self._statement()
        self._scope.last = self._at
        return self.found

    def _opened(self, around: Scope | None, before: int | None = None, is_function: bool = False) -> Scope:
        """A scope that begins here, and is the one at hand now."""
        self._scope = Scope(self._at, around, before, is_function)
        self.found.scopes.append(self._scope)
        return self._scope

    def _close(self, around: Scope) -> None:
        """Ends the scopes that were opened inside of one."""
        while self._scope is not around and self._scope.around is not None:
            self._scope.last = self._at - 1
            self._scope = self._scope.around

    def _bind(self, kind: str, name: int) -> None:
        """Binds the name at a token in the scope at hand."""
        self.found.places[name] = self._scope
        self._scope.bound.setdefault((kind, self.found.text(name)), []).append(name)

    def _is(self, *texts: bytes, ahead: int = 0) -> bool:
        return self.found.text(self._at + ahead) in texts

    def _is_name(self) -> bool:
        return self._at < len(self.found.tokens) and self.found.tokens[self._at].is_name()

    def _fail(self) -> NoReturn:
        raise NoProgram(self._at)

    def _go_deeper(self) -> None:
        self._deep += 1
        if self._deep > MOST_DEEP:
            raise NoProgram(self._at, "Nested")

    def _take(self, text: bytes) -> None:
        if not self._is(text):
            self._fail()
        self._at += 1

    def _named(self, role: str) -> int:
        """Takes a name, and gives its number."""
        if not self._is_name():
            self._fail()
        self.found.roles[self._at] = role
        self.found.places[self._at] = self._scope
        self._at += 1
        return self._at - 1

    def _statement(self) -> None:
        if self._is(b";"):
            self._at += 1
        elif self._is(b"{"):
            self._block()
        elif self._is(b"module", b"function"):
            self._definition()
        elif self._is_name() and self._is(b"=", ahead=1):
            self._assignment()
        else:
            self._instance()

    def _assignment(self) -> None:
        first, scope = self._at, self._scope
        name = self._named(VARIABLE)
        self._bind(VARIABLE, name)
        self._at += 1
        # (parameters stand before the scope, and are bound before all else)
        assigned = scope.bound[VARIABLE, self.found.text(name)]
        self._opened(scope, before=next(it for it in assigned if it >= scope.first))
        self._expression(b";")
        self._close(scope)
        self._take(b";")
        of_scope = self.found.assignments if scope.around is None else self.found.inner_assignments
        of_scope.append(Assignment(first, self._at - 1, name, scope))

    def _block(self) -> None:
        self._go_deeper()
        self._take(b"{")
        while not self._is(b"}"):
            self._statement()
        self._take(b"}")
        self._deep -= 1

    def _definition(self) -> None:
        first, scope = self._at, self._scope
        kind = MODULE if self._is(b"module") else FUNCTION
        self._at += 1
        name = self._named(kind)
        self._bind(kind, name)
        if kind == FUNCTION:
            self._opened(scope, is_function=True)
        parameters = self._parameters()
        self._close(scope)
        body, own = Span(self._at, self._at - 1), self._opened(scope, is_function=kind == FUNCTION)
        found = Definition(Span(first, self._at - 1), kind, name, parameters, body, scope, own)
        self.found.definitions.append(found)
        self._bind_all(parameters)
        if kind == MODULE:
            around, self._around = self._around, None
            self._body_in(own)
            self._around = around
        else:
            self._take(b"=")
            self._expression(b";")
            self._close(scope)
            self._take(b";")
        self._close(scope)
        found.last = body.last = self._at - 1

    def _bind_all(self, parameters: Sequence[int]) -> None:
        for it in parameters:
            self._bind(VARIABLE, it)

    def _parameters(self) -> list[int]:
        self._take(b"(")
        found = []
        while not self._is(b")"):
            found.append(self._named(PARAMETER))
            if self._is(b"="):
                self._at += 1
                self._expression(b",", b")")
            if not self._is(b")"):
                self._take(b",")
        self._take(b")")
        return found

    def _instance(self) -> None:
        found = Instance(self._at, self._around)
        self.found.instances.append(found)
        if self._around is not None:
            self._around.children.append(found)
        self._around = found
        while self._is(b"*", b"%", b"#", b"!"):
            self._at += 1
        found.core = self._at
        self._core(found)
        found.last = self._at - 1
        self._around = found.around

    def _core(self, found: Instance) -> None:
        """Takes what stands behind the marks of an instance."""
        if self._is(b"if"):
            self._at += 1
            self._take(b"(")
            self._expression(b")")
            self._take(b")")
            found.scope = self._body()
            if self._is(b"else"):
                self._at += 1
                found.has_else = True
                self._body()
            return
        around = self._scope
        if self._is(b"for", b"intersection_for", b"let", b"each"):
            self._binders()
        else:
            found.call = Call(self._at, self._at, MODULE, self._named(MODULE))
            self.found.calls.append(found.call)
            self._arguments(found.call)
        found.scope = self._body()
        self._close(around)

    def _body(self) -> Scope:
        around = self._scope
        scope = self._opened(around)
        self._body_in(scope)
        self._close(around)
        return scope

    def _body_in(self, scope: Scope) -> None:
        """Takes the body whose scope was opened for it."""
        self._go_deeper()
        if self._is(b";"):
            self._at += 1
        elif self._is(b"{"):
            self._block()
        else:
            self._instance()
        self._close(scope)
        self._deep -= 1

    def _binders(self) -> None:
        """Takes a `for`, or a like word, and the variables behind it; the scope of the last of them is left open."""
        is_function = self._is(b"function")
        self._at += 1
        self._take(b"(")
        while not self._is(b")"):
            name = None
            if self._is_name() and (self._is(b"=", ahead=1) or (is_function and self._is(b",", b")", ahead=1))):
                name = self._named(VARIABLE)
                self._at += self._is(b"=")
            if name is None or self.found.text(name + 1) == b"=":
                self._expression(b",", b")")
            if name is not None:
                self._opened(self._scope)
                self._bind(VARIABLE, name)
            if not self._is(b")"):
                self._take(b",")
        self._take(b")")

    def _arguments(self, call: Call) -> None:
        """Takes what stands in the brackets behind the name of a call."""
        self._take(b"(")
        while not self._is(b")"):
            start = self._at
            if self._is_name() and self._is(b"=", ahead=1):
                self._named(ARGUMENT)
                self._at += 1
            self._expression(b",", b")")
            call.arguments.append(Span(start, self._at - 1))
            if not self._is(b")"):
                self._take(b",")
        self._take(b")")
        call.last = self._at - 1

    def _expression(self, *ends: bytes) -> None:
        """Takes what stands before one of these ends, at least one token, with the brackets in it closed. What a `let`, a `for`
        or a `function` in it binds is known to its end, or to that of the side of a choice in which it stands."""
        self._go_deeper()
        if self._is(*ends):
            self._fail()
        around = self._scope
        sides: list[Scope] = []
        while not self._is(*ends):
            if self._at >= len(self.found.tokens) or self._is(b")", b"]", b"}", b";", b"{"):
                self._fail()
            if self._is(b"?"):
                sides.append(self._scope)
            elif self._is(b":"):
                self._close(sides.pop() if sides else around)
            self._part()
        self._close(around)
        self._deep -= 1

    def _part(self) -> None:
        """Takes a token of an expression, with the arguments of a call and with what stands in brackets."""
        text = self.found.text(self._at)
        if text == b"." and self._at + 1 < len(self.found.tokens) and self.found.tokens[self._at + 1].kind == "name":
            self._at += 2
        elif self._is_name() and self._is(b"(", ahead=1):
            call = Call(self._at, self._at, FUNCTION, self._named(FUNCTION))
            self.found.calls.append(call)
            self._arguments(call)
        elif self._is_name():
            self._named(VARIABLE)
        elif text in (b"for", b"let", b"function") and self._is(b"(", ahead=1):
            self._binders()
        elif text in (b"(", b"["):
            self._at += 1
            while not self._is(CLOSING[text]):
                self._expression(CLOSING[text], b",")
                if not self._is(CLOSING[text]):
                    self._take(b",")
            self._take(CLOSING[text])
        else:
            self._at += 1


def structure_of(tokens: Sequence[Token]) -> Structure:
    """How the program of these tokens is built. Raises NoProgram."""
    return Reader(tokens).program()
