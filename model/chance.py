"""Sources made by chance, from the grammar: many that mean something, and faults of each kind among them.

Names say what they stand for, so that most expressions have a wanted type: `a`, `b` and `c` are numbers, `v` and `w` lists
of three of them, `t` is any value. What a source uses and doesn't define is mostly defined at its end."""

from __future__ import annotations

import re
from random import Random
from typing import Callable, Sequence

from .plane_predicate import determinant

NUMBERS, LISTS, SPECIALS = ("a", "b", "c"), ("v", "w"), ("$a", "$b", "$fn", "$t")
FUNCTIONS, MODULES, PARAMETERS = ("f", "g", "h", "abs"), ("m", "n", "k", "cube", "echo"), ("a", "b", "n", "v")
OPERATORS = ("+", "-", "*", "/", "%", "<", "<=", ">", ">=", "==", "!=", "&&", "||")
BUILT_IN = ("abs", "sign", "floor", "ceil", "round", "min", "max", "len", "concat", "pow", "is_undef", "is_num", "is_bool",
    "is_list")
VALUES = ("\"ab\"", "[]", "undef", "true", "[1, [2]]", "[1 : 2]", "0", "5", "[true, \"a\"]")
LEFT_OUT = ("str", "sin", "norm", "cross", "version", "sphere", "minkowski", "text", "rotate_extrude", "cone", "q")
LARGE = ("4095", "4096", "65535", "65536", "2047", "4503599627370496", "9007199254740991", "9007199254740992", "100000", "64",
    "1024")
TOKENS = (
    "( ) [ ] { } , ; = : ? . + - * / % < > <= >= == != && || ! # ^ & | @ ~ module function if else for intersection_for true "
    "false undef use include let each $children $fn $a $ a b f m x 0 1 2.5 1e3 01 1. .0 .5 3a 9007199254740992 \"\" \"a\\n\" "
    "\"\\q\" \"open /* // */ \\ \t echo assert children union cube").split(" ")
BROKEN = ("2.5", "1e3", "3a", "1.e", "\"\\q\"", "\"a", "/*", "@", "9007199254740992", "let", "$", ".5", "^", "&", "\u00e9")


class Maker:
    """One source, its chance of what is probably a fault, and what it uses so far."""

    def __init__(self, chance: Random) -> None:
        self.chance = chance
        self.wild = chance.choice((0.0, 0.0, 0.004, 0.02, 0.1))
        self.flat = False
        self.signed = False
        self.functions: dict[str, Sequence[str]] = {}
        self.modules: dict[str, Sequence[str]] = {}

    def one_of(self, *makers: Callable[[], str] | str) -> str:
        made = makers[int(self.chance.random() * len(makers))]
        return made if isinstance(made, str) else made()

    def is_wild(self) -> bool:
        return self.chance.random() < self.wild

    def usually(self, tame: Sequence[Callable[[], str] | str], wild: Sequence[Callable[[], str] | str]) -> str:
        """One of the first ones, or now and then one that is probably a fault."""
        return self.one_of(*(wild if self.is_wild() else tame))

    def numeral(self) -> str:
        if self.is_wild():
            return self.one_of(*LARGE, *BROKEN, "0", "00", "1.0", "2.", ".0")
        if self.signed and self.chance.random() < 0.4:
            return self.one_of("0", f"-{self.chance.randrange(1, 12)}", str(self.chance.randrange(60)))
        return str(int(self.chance.random() ** 2 * 7) + 1)

    def size(self, depth: int = 0) -> str:
        """A number that is probably above 0."""
        if self.chance.random() < 0.75 or depth > 2:
            return self.numeral()
        return self.one_of(self.variable, lambda: f"{self.size(depth + 1)} {self.one_of('+', '*')} {self.size(depth + 1)}",
                           lambda: f"abs({self.number(depth + 1)}) + 1", lambda: f"max(1, {self.number(depth + 1)})")

    def variable(self) -> str:
        return self.usually(NUMBERS, (*LISTS, "t", "x", "size", "m"))

    def number(self, depth: int = 0) -> str:
        if depth > 3 or self.chance.random() < 0.4:
            return self.numeral()
        if self.is_wild():
            return self.anything(depth)
        below = depth + 1
        if self.signed and self.chance.random() < 0.3:
            return f"{self.number(below)} {self.one_of(*OPERATORS[:5])} {self.number(below)}"
        return self.one_of(
            self.variable, self.variable, lambda: f"{self.number(below)} {self.one_of('+', '-', '*')} {self.number(below)}",
            lambda: f"-{self.number(below)}", lambda: f"({self.number(below)})", lambda: self.call(below),
            lambda: f"{self.truth(below)} ? {self.number(below)} : {self.number(below)}",
            lambda: f"{self.list(below)}[{self.index()}]",
            lambda: f"{self.list(below)}.{self.one_of('x', 'y', 'z') if not self.is_wild() else 'w'}",
            lambda: self.built_in(below),
            lambda: self.one_of("$children", "$children", *SPECIALS), lambda: f"{self.number(below)} * 2 / 2",
            lambda: f"{self.number(below)} % {self.numeral()}", "0", lambda: f"{self.list(below)} * {self.list(below)}")

    def index(self) -> str:
        return self.usually(("0", "1", "2"), ("3", "-1", "a", "true", "[0]", "9007199254740991"))

    def truth(self, depth: int = 0) -> str:
        below = depth + 1
        return self.one_of(
            "true", "false", lambda: f"{self.number(below)} {self.one_of(*OPERATORS[5:11])} {self.number(below)}",
            lambda: f"!{self.anything(below)}",
            lambda: f"{self.anything(below)} {self.one_of(*OPERATORS[9:])} {self.truth(below)}",
            lambda: self.anything(below), lambda: f"{self.one_of(*BUILT_IN[-4:])}({self.anything(below)})")

    def list(self, depth: int = 0) -> str:
        if depth > 3 or self.chance.random() < 0.6:
            return self.usually(("v", lambda: self.numbers(3, depth)), ("[]", "w", "\"ab\"", "t"))
        below = depth + 1
        return self.one_of(
            lambda: f"{self.list(below)} {self.one_of('+', '-')} {self.list(below)}", lambda: f"-{self.list(below)}",
            lambda: f"{self.number(below)} * {self.list(below)}", lambda: f"[{self.list(below)}, {self.number(below)}][0]",
            lambda: f"concat({self.list(below)}, {self.anything(below)})")

    def numbers(self, count: int, depth: int = 2) -> str:
        parts = [self.number(depth + 2) for _ in range(count + (self.chance.choice((-1, 1)) if self.is_wild() else 0))]
        return "[" + ", ".join(parts) + ("," if parts and self.chance.random() < 0.05 else "") + "]"

    def range(self) -> str:
        if self.is_wild():
            return f"[{self.anything(2)} : {self.anything(2)}{self.one_of('', ' : 1', ' : 0', ' : -1')}]"
        first, last = sorted((self.chance.randrange(-1, 3), self.chance.randrange(0, 4)))
        return self.one_of(
            f"[{first}:{last}]", f"[{first}:1:{last}]", f"[{last}:-1:{first}]", f"[0:{self.numeral()}]", "[0:-1:5]", "[1:2:1]")

    def values(self) -> str:
        """What a loop goes over."""
        return self.usually((self.range, self.range, lambda: self.numbers(self.chance.randrange(4)), "[0, 2]"), ("v", "t", "a"))

    def anything(self, depth: int = 0) -> str:
        below = depth + 1
        if depth > 3:
            return self.one_of("0", "1", "\"\"", "\"ab\"", "undef", "[]", "true")
        return self.one_of(
            lambda: self.number(below), lambda: self.number(below), lambda: self.list(below), lambda: self.truth(below),
            self.range, "undef", "\"\"", "\"a\\\"b\"", "[]", "t", "$t",
            lambda: f"[{self.anything(below)}, {self.anything(below)}]",
            lambda: f"{self.anything(below)} {self.one_of(*OPERATORS)} {self.anything(below)}", lambda: self.call(below),
            lambda: f"{self.one_of('-', '+', '!')}{self.anything(below)}",
            lambda: f"({self.anything(below)})[{self.anything(below)}]")

    def built_in(self, depth: int) -> str:
        name = self.usually(BUILT_IN[:10], (*BUILT_IN, *LEFT_OUT))
        if name == "len":
            return f"len({self.list(depth)})"
        if name == "concat":
            return f"len(concat({self.list(depth)}, {self.anything(depth)}))"
        if name == "pow":
            return f"pow({self.number(depth)}, {self.one_of('0', '1', '2', '3', '-1' if self.is_wild() else '2')})"
        count = 1 if name not in ("min", "max") and not self.is_wild() else self.chance.randrange(0 if self.is_wild() else 1, 4)
        return f"{name}({', '.join(self.number(depth + 1) for _ in range(count))})"

    def call(self, depth: int) -> str:
        name = self.usually(FUNCTIONS[:3], (*FUNCTIONS, *MODULES))
        parameters = self.functions.setdefault(name, self.parameters())
        return f"{name}({self.arguments(parameters, depth)})"

    def parameters(self) -> Sequence[str]:
        count = self.chance.randrange(0, 3)
        return [self.one_of(*PARAMETERS) for _ in range(count)] if self.is_wild() else self.chance.sample(PARAMETERS, count)

    def arguments(self, parameters: Sequence[str], depth: int = 1) -> str:
        """Arguments for parameters: some by place and some by name, and special ones among them."""
        given = []
        named = False
        for name in parameters:
            value = self.list(depth + 1) if name in LISTS else self.number(depth + 1)
            named = named or self.chance.random() < 0.3
            if self.chance.random() < 0.1:
                named = True
                continue
            given.append(f"{name} = {value}" if named else value)
        if self.chance.random() < 0.08:
            given.insert(self.chance.randrange(len(given) + 1), f"{self.one_of(*SPECIALS)} = {self.number(depth + 1)}")
        if self.is_wild():
            surplus = self.one_of(self.number, "a = 1", "q = 1", "$a = 1", "$children = 1", "$q")
            given.insert(self.chance.randrange(len(given) + 1), surplus)
        return ", ".join(given)

    def definition(self, parameters: Sequence[str]) -> str:
        """Parameters as they are defined, some with a default."""
        defaults = (f" = {self.list(2) if name in LISTS else self.number(2)}" for name in parameters)
        return ", ".join(name + (it if self.chance.random() < 0.4 else "") for name, it in zip(parameters, defaults))

    def function(self, name: str) -> str:
        parameters = self.functions.setdefault(name, self.parameters())
        plain = lambda: self.number(1)  # noqa: E731
        value = self.usually((plain, plain, plain, self.recursion(name, parameters)), (lambda: self.anything(1),))
        return f"function {name}({self.definition(parameters)}) = {value};"

    def recursion(self, name: str, parameters: Sequence[str]) -> Callable[[], str]:
        def made() -> str:
            n = "n" if "n" in parameters else "1"
            given = ", ".join(f"{it} = {'n - 1' if it == 'n' else it}" for it in parameters)
            return f"{n} < 1 ? {self.number(2)} : {name}({given})"
        return made

    def assignment(self) -> str:
        if self.chance.random() < 0.2:
            return f"{self.one_of(*SPECIALS)} = {self.number(1) if not self.is_wild() else self.anything()};"
        name = self.one_of(*NUMBERS, *LISTS, "t")
        made = self.size if name in NUMBERS else self.list if name in LISTS else self.anything
        return f"{name} = {made()};"

    def module(self, name: str) -> str:
        parameters = self.modules.setdefault(name, self.parameters())
        flat, self.flat = self.flat, self.flat and self.chance.random() < 0.5
        body = self.body(1, children=True)
        self.flat = flat
        return f"module {name}({self.definition(parameters)}) {body}"

    def body(self, depth: int, children: bool = False) -> str:
        if self.chance.random() < 0.35 and depth < 4:
            return self.instance(depth + 1, children)
        if depth > 3 and self.chance.random() < 0.7:
            return self.shape()
        return self.one_of(";", "{ }") if self.chance.random() < 0.06 else "{ " + self.statements(depth + 1, children) + " }"

    def statements(self, depth: int, children: bool = False) -> str:
        made = [self.statement(depth, children) for _ in range(1 + int(self.chance.random() ** 2 * 4))]
        return (" " if depth or self.chance.random() < 0.7 else "\n").join(made)

    def statement(self, depth: int, children: bool) -> str:
        at = self.chance.random()
        if at < 0.14:
            return self.assignment()
        if at < 0.17:
            return self.function(self.one_of(*FUNCTIONS[:3] if not self.is_wild() else FUNCTIONS))
        if at < 0.22 and depth < 3:
            return self.module(self.one_of(*MODULES[:3] if not self.is_wild() else MODULES))
        if at < 0.24:
            return self.one_of(";", lambda: "{ " + self.statements(depth + 1, children) + " }" if depth < 4 else ";")
        return self.instance(depth, children)

    def mark(self) -> str:
        at = self.chance.random()
        if at < 0.93:
            return ""
        return "#" if self.flat and at > 0.95 else self.one_of("*", "%", "#", "!", "#", "!", "!#", "*!", "%%")

    def instance(self, depth: int, children: bool = False) -> str:
        mark = self.mark()
        if depth > 4:
            return mark + self.shape()
        if children and self.chance.random() < 0.3:
            return mark + f"children({self.chosen()}){self.one_of(';', ';', ';', ' cube(0);')}"
        return mark + self.one_of(
            self.shape, self.shape, self.shape, self.shape, self.checked,
            *[lambda made=made: made(depth, children) for made in (  # type: ignore[misc]
                self.choice, self.loop, self.moved, self.moved, self.moved, self.joined, self.joined, self.module_call,
                self.module_call, self.extruded, self.hull)])

    def chosen(self) -> str:
        return self.usually(
            ("", "", "", "", "0", "1", "[0, 1]", "[1, 0, 0]", "[0:1]", "[1:-1:0]", "$children - 1", "[]", "[0:-1:5]",
             self.variable),
            ("-1", "undef", "\"0\"", "[true]", "9007199254740991", "[0:1:9007199254740991]", "0, 1", "index = 1", "$q = 1",
             "i = 0"))

    def choice(self, depth: int, children: bool) -> str:
        other = self.one_of("", "", lambda: f" else {self.body(depth + 1, children)}")
        return f"if ({self.truth(2)}) {self.body(depth + 1, children)}{other}"

    def loop(self, depth: int, children: bool) -> str:
        count = self.chance.choice((1, 1, 1, 2, 2, 3))
        binders = [f"{self.one_of(*NUMBERS)} = {self.usually((self.values,), (self.anything,))}" for _ in range(count)]
        return f"{self.one_of('for', 'for', 'for', 'intersection_for')} ({', '.join(binders)}) {self.body(depth + 1, children)}"

    def moved(self, depth: int, children: bool) -> str:
        third = "0" if self.flat and not self.is_wild() else None
        tame = (
            lambda: f"translate([{self.number(2)}, {self.number(2)}, {third or self.number(2)}])",
            lambda: f"translate({self.numbers(2)})", lambda: f"rotate({self.turn()})",
            lambda: f"rotate([{third or self.turn()}, {third or self.turn()}, {self.turn()}])",
            lambda: f"mirror([{self.one_of('1, 0', '0, 1', '-2, 0')}, 0])",
            lambda: "mirror([1, 0])" if self.flat else "mirror([0, 0, 1])", lambda: f"scale({self.size()})",
            lambda: f"scale([{self.size()}, {self.size()}, {self.size()}])", self.matrix,
            lambda: f"color({self.arguments(('c', 'alpha'))})", "render()")
        wild = (
            "translate()", "translate(1)", "rotate(45)", "rotate(90, 1)", "mirror([1, 1])", "mirror(0)", "scale(0)",
            "scale(v = [1, 2])", "multmatrix([[1, 0, 0, 0], [1, 0, 0, 0], [0, 0, 1, 0]])", "color(q = 1)", "render(1, 2)",
            lambda: f"translate({self.anything()})", lambda: f"translate([{self.one_of(*LARGE)}, 0, 0])",
            lambda: f"scale({self.one_of(*LARGE)})")
        move = self.usually(tame, wild)
        return f"{move} {self.body(depth + 1, children)}"

    def turn(self) -> str:
        return self.usually(("90", "0", "-90", "180", "270", "450", "a * 90"), ("360", "45", "true", "1"))

    def matrix(self) -> str:
        rows = [[int(i == j) for j in range(4)] for i in range(3)]
        for _ in range(self.chance.randrange(1, 3)):
            rows[self.chance.randrange(2)][self.chance.choice((0, 1, 3))] = self.chance.randrange(-2, 3)
        if not self.flat or self.is_wild():
            rows[self.chance.randrange(3)][self.chance.randrange(4)] = self.chance.randrange(-2, 3)
        return f"multmatrix({rows + ([[0, 0, 0, 1]] if self.chance.random() < 0.3 else [])})"

    def joined(self, depth: int, children: bool) -> str:
        word = self.one_of("union", "difference", "difference", "intersection")
        return f"{word}({'1' if self.is_wild() else ''}) {self.body(depth + 1, children)}"

    def hull(self, depth: int, children: bool) -> str:
        return f"hull() {self.body(depth + 1, children)}" if not self.flat or self.is_wild() else self.shape()

    def checked(self) -> str:
        if self.chance.random() < 0.5:
            return f"echo({self.arguments(('a', 'b'))}){self.one_of(';', ';', '{}', ' {;}' if self.is_wild() else ';')}"
        condition = self.one_of("true", "1", "a > 0 || true", "[0]", "\"a\"", lambda: self.truth(1))
        return f"assert({condition}{self.one_of('', ', 1')}){self.one_of(';', '{}', ' cube(1);' if self.is_wild() else ';')}"

    def extruded(self, depth: int, children: bool) -> str:
        if self.flat and not self.is_wild():
            return self.shape()
        flat, self.flat = self.flat, True
        centered = self.one_of("", "", ", true", ", center = false", ", scale = 1" if self.is_wild() else "")
        made = f"linear_extrude({self.one_of('height = ', '')}{self.size()}{centered}) {self.body(depth + 1, children)}"
        self.flat = flat
        return made

    def module_call(self, depth: int, children: bool) -> str:
        """A call whose braces may hold what is not a child."""
        name = self.usually(MODULES[:3], (*MODULES, *LEFT_OUT, *FUNCTIONS))
        parameters = self.modules.setdefault(name, self.parameters()) if name in MODULES else ()
        body = self.one_of(";", lambda: self.body(depth + 1, children))
        if body.startswith("{ ") and self.chance.random() < 0.35:
            extra = self.one_of(
                "$a = 7;", "a = 2;", self.checked, self.checked, lambda: "*" + self.shape(), "if (false) cube(1);",
                "{ assert(true); }")
            body = self.one_of(f"{{ {extra} {body[2:]}", f"{body[:-2]} {extra} }}")
        return f"{name}({self.arguments(parameters)}) {body}"

    def shape(self) -> str:
        """A shape of the dimension that is wanted here."""
        flat = (
            lambda: f"square({self.size()});", "square([2, 3]);", "square([4, 2], true);", "square(2, center = true);",
            "square();", self.polygon, lambda: f"circle({self.one_of('', 'r = ')}{self.size()}, $fn = 4);")
        solid = (
            lambda: f"cube({self.size()});", lambda: f"cube([{self.size()}, {self.size()}, {self.size()}]);", "cube(2, true);",
            self.cylinder, self.polyhedron, "cube();")
        wild = (
            "cube(0);", "cube(-1);", "cube(undef);", "cube(true);", "cube(3, true);", "cube([1, 2]);", "cube(1, 1);",
            "circle(2);", "square(0);", lambda: f"cube({self.arguments(('size', 'center'))});", *flat, *solid)
        return self.usually(flat if self.flat else solid, wild)

    def cylinder(self) -> str:
        radii = self.usually(
            (f"r = {self.size()}", f"r1 = {self.size()}, r2 = {self.one_of('0', '1', '2')}", f"r2 = {self.size()}", "",
             "r1 = 0"),
            ("d = 2", "r = 1, r1 = 1", "r1 = 0, r2 = 0", "r = -1", "r = true", "r = 65536", "center = true"))
        fragments = self.usually(("$fn = 4",), ("$fn = 5", "$fn = true", "$fa = 1", "$fn = 4, $fn = 4"))
        return f"cylinder({self.one_of('h = ', '')}{self.size()}{', ' if radii else ''}{radii}, {fragments});"

    def point(self, count: int, spread: int = 3) -> list[int]:
        return [self.chance.randrange(-spread, spread + 1) for _ in range(count)]

    def polygon(self) -> str:
        points = self.usually(
            ("[[0, 0], [4, 0], [0, 3]]", "[[0, 0], [2, 0], [3, 2], [1, 3]]", "[[0, 0], [0, 2], [2, 2], [2, 0]]",
             "[[1, 0], [0, 1], [-1, 0], [0, -1]]", "[[0, 0], [1, 0], [2, 0], [0, 2]]", str([self.point(2) for _ in range(3)])),
            (str([self.point(2) for _ in range(self.chance.randrange(2, 6))]),))
        return f"polygon({points}{', [[0, 1, 2]]' if self.is_wild() else ''});"

    def polyhedron(self) -> str:
        """A tetrahedron, a pyramid or a box of points by chance, and mostly the faces in the right order."""
        tetrahedron = [[0, 1, 2], [0, 3, 1], [0, 2, 3], [1, 3, 2]]
        p, q, r, s = (self.point(3) for _ in range(4))
        side = determinant(*(to - at for corner in (q, r, s) for to, at in zip(corner, p)))
        faces = tetrahedron if side >= 0 else [face[::-1] for face in tetrahedron]
        points = [p, q, r, s]
        if self.chance.random() < 0.3:
            points = [[0, 0, 0], [4, 0, 0], [4, 3, 0], [0, 3, 0], [1, 1, 2]]
            faces = [[0, 1, 2, 3], [1, 0, 4], [2, 1, 4], [3, 2, 4], [0, 3, 4]]
        if self.is_wild():
            first = self.chance.choice(([*faces[0][:2], 9], faces[0][:2], faces[0][::-1], faces[1]))
            faces = self.chance.choice((faces[1:], [*faces, faces[0]], [face[::-1] for face in faces], [first, *faces[1:]]))
        return f"polyhedron({points}, {faces});"

    def probe(self) -> str:
        """A statement whose solid or fault tells a value."""
        self.signed = True
        x = self.anything()
        kind = "is_undef(x) ? 1 : is_num(x) ? 2 : is_bool(x) ? 3 : is_list(x) ? len(x) + 4 : 4"
        told = f"is_num(x) ? x : is_list(x) ? len(x) : -1, x == {self.anything(2)} ? 5 : 9"
        return self.one_of(
            lambda: f"translate([{self.number()}, {self.number()}, {self.number()}]) cube(1);",
            lambda: f"x = {x}; translate([{told}]) cube({kind});", lambda: f"if ({x}) cube(1); else cube(2);",
            lambda: f"assert(({x}) {self.one_of('==', '!=', '<')} {self.anything(2)});",
            lambda: f"for (i = {self.usually((self.values,), (self.anything,))}) translate([2 * i, 0]) cube(1);",
            lambda: f"translate({self.list()}) cube(2);", lambda: f"x = {x}; y = {self.anything()}; translate([x, y]) cube(1);")

    def program(self, statements: str) -> str:
        """Statements, and behind or before them what they use."""
        text = statements
        for _ in range(3):
            text += "".join(" " + it for it in self.missing(text))
        for name in (*NUMBERS, *LISTS, "t"):
            if re.search(rf"(?<!\$)\b{name}\b", text) and self.chance.random() < 0.97:
                value = self.numeral() if name in NUMBERS else "[1, 2, 3]" if name in LISTS else self.one_of(*VALUES)
                text = f"{name} = {value};{self.one_of(' ', chr(10))}{text}"
        for name in ("$a", "$b", "$t"):
            if name in text and self.chance.random() < 0.8:
                text = f"{name} = {self.numeral()};{self.one_of(' ', chr(10))}{text}"
        return text

    def missing(self, text: str) -> list[str]:
        """Most functions and modules that are used so far and are not defined."""
        functions = [name for name in self.functions if f"function {name}(" not in text and name not in BUILT_IN]
        modules = [name for name in self.modules if f"module {name}(" not in text and name in MODULES[:3]]
        made = [(self.function, name) for name in functions] + [(self.module, name) for name in modules]
        return [make(name) for make, name in made if self.chance.random() < 0.97]


def limits(chance: Random) -> str:
    """A source at a limit, or a little before or past it."""
    near = chance.randrange(-2, 3)
    many = chance.choice(
        ("(", "[", "f(", "-", "1?1:", "{", "m() ", "m(){", "if(1) ", "if(1);else ", "for(i=1) ", "f(a=", "a[", "!"))
    opened = many * ((64 if "{" not in many or many == "{" else 32) + near)
    deep = f"{opened}{chance.choice(('1', 'a', ')', ';', 'for', 'x=1;', '', 'cube(1);'))}"
    parens = chance.randrange(3, 9)
    calls = chance.choice((64, 65, 63, 512 // (parens + 2))) + near
    zeros = "[" + ",".join("0" * 63) + "]"
    return chance.choice((
        lambda: deep if many.startswith(("{", "m", "if", "for")) else f"x={deep}",
        lambda: f"function f(n) = n < 1 ? 0 : {'(' * parens}f(n - 1){')' * parens}; x = f({calls}); cube(x);",
        lambda: f"module m(n) {{ if (n > 0) {'union() ' * parens}m(n - 1); else {{ a = 1; cube(a); }} }} m({calls});",
        lambda: f"module m(n) {{ if (n > 0) m(n - 1) children(); else children(); }} m({32 + near}) cube(1);",
        lambda: f"module m(n) {{ if (n > 0) m(n - 1) {{ children(); children(); }} else children(); }} "
                f"m({chance.randrange(1, 10)}) {{ echo($children); cube(1); }}",
        lambda: f"v = {zeros};\nw = concat({', '.join('v' * chance.choice((64, 65)))}, 0{chance.choice((', 0', ''))});",
        lambda: f"function f(n) = n < 1 ? [] : [f(n - 1)]; x = f({63 + near}); y = [x]; cube(1);",
        lambda: f"v = {zeros}; for (i = [1 : {1562 + near}]) assert(v);",
        lambda: f"for (i = [1 : {1024 + near}]) cube(1);" if chance.random() < 0.3
        else f"hull() for (i = [1 : {1023 + near}]) cube(1);",
        lambda: f"for (i = [0 : {509 + near}]) translate([2 * i, 0, 0]) cube(1);" if chance.random() < 0.3 else "cube(4096);",
        lambda: f"translate([{4094 + near}, 0, 0]) cube(1);",
        lambda: f"scale([{9007199254740991 // 7 + near}, 1, 1]) cube(7);",
        lambda: f"translate([9007199254740990, 0, 0]) cube({chance.randrange(1, 4)});",
        lambda: f"rotate(90) scale({3037000500 + near}) scale({chance.randrange(1, 4)}) cube(1);",
        lambda: f"hull() {{ cube({65535 + near}); cube(1); }}",
        lambda: f"x = 9007199254740991 {chance.choice('+-*')} {near}; y = -x - {near};",
        lambda: f"linear_extrude(9007199254740991) square({near});",
        lambda: f"hull() for (a = [0 : {chance.randrange(1, 4)}], b = [0, 1], c = [0:3]) translate([a * a, b, c * c]) cube(1);",
        lambda: "for (a = [1 : 25000], b = [1 : 3], c = [0 : -1 : 5]) ;" if chance.random() < 0.05
        else "for (a = [0:2], b = [0:-1:5]) ;",
        lambda: f"for (i = [1 : {100000 + near}]) ;" if chance.random() < 0.05 else "for (i = [1 : 9007199254740991]) cube(0);",
        lambda: f"polygon([{', '.join(['[0, 0]'] * (64 + near))}]);",
        lambda: f"linear_extrude(1) polygon([{', '.join(['[0, 0]'] * (62 + near))}, [1, 0], [0, 1]]);"))()


def mutated(chance: Random, text: str) -> str:
    """A text with some of its tokens dropped, doubled, exchanged or made another one."""
    words = [it for it in _pieces(text)]
    for _ in range(chance.choice((1, 1, 1, 2, 3))):
        at = chance.randrange(len(words) + 1)
        how = chance.randrange(5)
        if how == 0:
            words.insert(at, chance.choice(TOKENS))
        elif at < len(words):
            if how == 1:
                del words[at]
            elif how == 2:
                words[at] = chance.choice(TOKENS)
            elif how == 3:
                words.insert(at, words[at])
            else:
                other = chance.randrange(len(words))
                words[at], words[other] = words[other], words[at]
    return "".join(words)


def _pieces(text: str) -> list[str]:
    """The words of a text, the blanks between them, and its other characters."""
    pieces: list[str] = []
    for byte in text:
        if pieces and (byte.isalnum() or byte in "_$") and (pieces[-1][-1].isalnum() or pieces[-1][-1] in "_$"):
            pieces[-1] += byte
        else:
            pieces.append(byte)
    return pieces


def laid_out(chance: Random, text: str) -> str:
    """A text with other blanks, or comments, in the place of some spaces."""
    return "".join(chance.choice(("\n", "  ", "\t", " // c\n", "/* c */", "\r\n", "")) if byte == " "
        and chance.random() < 0.1 else byte for byte in text)


def source(chance: Random) -> bytes:
    """A source, whose lines are short enough for a script."""
    at = chance.random()
    if at < 0.03:
        text = "".join(chance.choice(TOKENS) + chance.choice(("", " ", "\n")) for _ in range(chance.randrange(1, 12)))
    elif at < 0.05:
        text = limits(chance)
    else:
        maker = Maker(chance)
        text = maker.program(maker.statements(0) if at < 0.8 else maker.probe())
    if chance.random() < 0.12:
        text = mutated(chance, text)
    if chance.random() < 0.2:
        text = laid_out(chance, text)
    lines = text.encode("utf-8").split(b"\n")
    return b"\n".join(line[at:at + 1000] for line in lines for at in range(0, len(line) or 1, 1000)) + b"\n"
