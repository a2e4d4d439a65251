"""The program that tokens write, or their first fault: the crates `scad_grammar` and `scad_parser`.

The relations of the statement say which tokens write which program. Here a token is taken where some program goes on with it,
one after another, so the first that can't be taken is the first fault. `depth` is how deep a token stands there."""

from __future__ import annotations

from typing import Callable, TypeVar

from . import scad_lexer as lexer
from .scad_ast import (
    ArgTerm, AssignmentTerm, BinderTerm, BlockStatement, BodyTerm, CallTerm, ChainTerm, ChildCountTerm, ChoiceTerm, CoreTerm,
    EmptyStatement, ForTerm, FunctionTerm, IfTerm, IndexTerm, InstanceTerm, LinkTerm, ListTerm, MemberTerm, ModifierTerm,
    ModuleCallTerm, ModuleTerm, NamedTerm, NameTerm, NumberTerm, ParamTerm, ParenTerm, PositionalTerm, PostfixTerm, RangeTerm,
    SpecialArgTerm, SpecialAssignmentTerm, SpecialTerm, StatementTerm, StatementTerms, SteppedRangeTerm, Term, TextTerm,
    TruthTerm, UnaryTerm, UndefTerm)
from .scad_lexer import Token
from .text_place import Fault

A = TypeVar("A")

least_too_deep = 65
left_out_classes = frozenset(("use", "include", "let", "each", "^", lexer.special_class))
left_out_of_expressions = left_out_classes | {"for", "if", "function"}
argument_names = (lexer.name_class, lexer.special_class)
terms_with_value: dict[str, Callable[..., Term]] = {
    lexer.numeral_class: NumberTerm, lexer.text_class: TextTerm, lexer.special_class: SpecialTerm}
terms_alone: dict[str, Callable[..., Term]] = {
    "undef": UndefTerm, lexer.child_count_class: ChildCountTerm, "true": lambda at: TruthTerm(at, True),
    "false": lambda at: TruthTerm(at, False)}
levels = (("||",), ("&&",), ("==", "!="), ("<", "<=", ">", ">="), ("+", "-"), ("*", "/", "%"))
level_of = {op: level for level, ops in enumerate(levels) for op in ops}


class Parser:
    """Tokens, and which of them is the next one."""

    def __init__(self, tokens: list[Token]) -> None:
        self.tokens = tokens
        self.next = 0

    def kind(self) -> str:
        return self.tokens[self.next].kind

    def first_fault(self, before_expression: bool = False) -> Fault:
        """That of the next token, with which no program goes on."""
        token = self.tokens[self.next]
        left_out = left_out_of_expressions if before_expression else left_out_classes
        return Fault("NotInProfile" if token.kind in left_out else "Expected", token.at)

    def single_token(self, kind: str, depth: int) -> Token:
        """A token of this class, with which programs go on."""
        token = self.tokens[self.next]
        if token.kind != kind:
            raise self.first_fault()
        if depth >= least_too_deep:
            raise Fault("Nested", token.at)
        self.next += 1
        return token

    def if_next(self, kind: str, depth: int) -> bool:
        """Takes the token, if it is of this class."""
        if self.kind() != kind:
            return False
        self.single_token(kind, depth)
        return True

    def separated_list(self, close: str, item: Callable[[int], A], depth: int) -> list[A]:
        """At least one, with `,` between them and maybe one behind the last, up to the token that closes the list."""
        items = [item(depth)]
        while self.if_next(",", depth) and self.kind() != close:
            items.append(item(depth))
        return items

    def in_parentheses(self, item: Callable[[int], A], depth: int) -> list[A]:
        """Any number, in parentheses."""
        self.single_token("(", depth)
        items = [] if self.kind() == ")" else self.separated_list(")", item, depth + 1)
        self.single_token(")", depth)
        return items

    def arg(self, depth: int) -> ArgTerm:
        kind, at = self.kind(), self.tokens[self.next].at
        if kind in argument_names and self.tokens[self.next + 1].kind == "=":
            name = self.single_token(kind, depth).value
            self.single_token("=", depth)
            return (NamedTerm if kind == lexer.name_class else SpecialArgTerm)(at, name, self.expr(depth))
        return PositionalTerm(at, self.expr(depth))

    def param(self, depth: int) -> ParamTerm:
        name = self.single_token(lexer.name_class, depth)
        return ParamTerm(name.at, name.value, self.expr(depth) if self.if_next("=", depth) else None)

    def binder(self, depth: int) -> BinderTerm:
        name = self.single_token(lexer.name_class, depth)
        self.single_token("=", depth)
        return BinderTerm(name.at, name.value, self.expr(depth))

    def bracket(self, depth: int) -> Term:
        at = self.single_token("[", depth).at
        if self.if_next("]", depth):
            return ListTerm(at, [])
        first = self.expr(depth + 1)
        if self.if_next(":", depth + 1):
            second = self.expr(depth + 1)
            third = self.expr(depth + 1) if self.if_next(":", depth + 1) else None
            self.single_token("]", depth)
            return RangeTerm(at, first, second) if third is None else SteppedRangeTerm(at, first, second, third)
        items = [first]
        while self.if_next(",", depth + 1) and self.kind() != "]":
            items.append(self.expr(depth + 1))
        self.single_token("]", depth)
        return ListTerm(at, items)

    def primary(self, depth: int) -> Term:
        kind, at = self.kind(), self.tokens[self.next].at
        if kind == "[":
            return self.bracket(depth)
        if kind == "(":
            self.single_token("(", depth)
            inner = self.expr(depth + 1)
            self.single_token(")", depth)
            return ParenTerm(at, inner)
        if kind == lexer.name_class:
            name = self.single_token(kind, depth).value
            return CallTerm(at, name, self.in_parentheses(self.arg, depth)) if self.kind() == "(" else NameTerm(at, name)
        if kind in terms_with_value:
            return terms_with_value[kind](at, self.single_token(kind, depth).value)
        if kind in terms_alone:
            self.single_token(kind, depth)
            return terms_alone[kind](at)
        raise self.first_fault(before_expression=True)

    def suffix(self, depth: int) -> IndexTerm | MemberTerm:
        if self.kind() == "[":
            at = self.single_token("[", depth).at
            index = self.expr(depth + 1)
            self.single_token("]", depth)
            return IndexTerm(at, index)
        dot = self.single_token(".", depth)
        named = self.single_token(lexer.name_class, depth)
        return MemberTerm(dot.at, named.value, named.at)

    def postfix(self, depth: int) -> Term:
        first, suffixes = self.primary(depth), []
        while self.kind() in ("[", "."):
            suffixes.append(self.suffix(depth))
        return PostfixTerm(first.at, first, suffixes) if suffixes else first

    def unary(self, depth: int) -> Term:
        if self.kind() in ("-", "+", "!"):
            token = self.single_token(self.kind(), depth)
            return UnaryTerm(token.at, token.kind, self.unary(depth + 1))
        return self.postfix(depth)

    def chain(self, level: int, depth: int) -> Term:
        """Operands of a level or those behind it, with the operators between them: the last level first."""
        first = self.unary(depth)
        while level <= level_of.get(self.kind(), -1):
            at, links = level_of[self.kind()], []
            while self.kind() in levels[at]:
                token = self.single_token(self.kind(), depth)
                links.append(LinkTerm(token.kind, token.at, self.chain(at + 1, depth)))
            first = ChainTerm(first.at, first, links)
        return first

    def expr(self, depth: int) -> Term:
        test = self.chain(0, depth)
        if self.kind() != "?":
            return test
        mark = self.single_token("?", depth).at
        yes = self.expr(depth + 1)
        self.single_token(":", depth)
        return ChoiceTerm(test.at, test, mark, yes, self.expr(depth + 1))

    def core(self, depth: int) -> CoreTerm:
        kind, at = self.kind(), self.tokens[self.next].at
        if kind == "if":
            self.single_token(kind, depth)
            self.single_token("(", depth)
            test = self.expr(depth + 1)
            self.single_token(")", depth)
            body = self.body(depth + 1)
            return IfTerm(at, test, body, self.body(depth + 1) if self.if_next("else", depth) else None)
        if kind in ("for", "intersection_for"):
            self.single_token(kind, depth)
            self.single_token("(", depth)
            binders = self.separated_list(")", self.binder, depth + 1)
            self.single_token(")", depth)
            return ForTerm(at, kind, binders, self.body(depth + 1))
        name = self.single_token(lexer.name_class, depth).value
        return ModuleCallTerm(at, name, self.in_parentheses(self.arg, depth), self.body(depth + 1))

    def instance(self, depth: int) -> InstanceTerm:
        at, modifiers = self.tokens[self.next].at, []
        while self.kind() in ("*", "%", "#", "!"):
            mark = self.single_token(self.kind(), depth)
            modifiers.append(ModifierTerm(mark.at, mark.kind))
        return InstanceTerm(at, modifiers, self.core(depth))

    def body(self, depth: int) -> BodyTerm:
        at = self.tokens[self.next].at
        if self.if_next(";", depth):
            return BodyTerm(at, ";", StatementTerms([]))
        if self.if_next("{", depth):
            statements = self.statements("}", depth + 1)
            self.single_token("}", depth)
            return BodyTerm(at, "{", statements)
        return BodyTerm(at, "instance", StatementTerms([self.instance(depth)]))

    def assignment(self, depth: int) -> StatementTerm:
        name = self.single_token(self.kind(), depth)
        self.single_token("=", depth)
        value = self.expr(depth)
        self.single_token(";", depth)
        return (AssignmentTerm if name.kind == lexer.name_class else SpecialAssignmentTerm)(name.at, name.value, value)

    def definition(self, depth: int) -> StatementTerm:
        word = self.single_token(self.kind(), depth)
        name = self.single_token(lexer.name_class, depth)
        params = self.in_parentheses(self.param, depth)
        if word.kind == "module":
            return ModuleTerm(word.at, name.value, name.at, params, self.body(depth + 1))
        self.single_token("=", depth)
        value = self.expr(depth)
        self.single_token(";", depth)
        return FunctionTerm(word.at, name.value, name.at, params, value)

    def statement(self, depth: int) -> StatementTerm:
        kind, at = self.kind(), self.tokens[self.next].at
        if self.if_next(";", depth):
            return EmptyStatement(at)
        if self.if_next("{", depth):
            statements = self.statements("}", depth + 1)
            self.single_token("}", depth)
            return BlockStatement(at, statements)
        if kind == lexer.special_class or (kind == lexer.name_class and self.tokens[self.next + 1].kind == "="):
            return self.assignment(depth)
        return self.definition(depth) if kind in ("module", "function") else self.instance(depth)

    def statements(self, close: str, depth: int) -> StatementTerms:
        """Statements up to the token that closes them."""
        found = []
        while self.kind() != close and self.kind() in begins_statement:
            found.append(self.statement(depth))
        return StatementTerms(found)


begins_statement = frozenset((
    ";", "{", lexer.special_class, lexer.name_class, "module", "function", "*", "%", "#", "!", "if", "for", "intersection_for"))


def whole_program(tokens: list[Token]) -> StatementTerms:
    """The program that tokens write, or their first fault."""
    parser = Parser(tokens)
    program = parser.statements(lexer.end_class, 0)
    parser.single_token(lexer.end_class, 0)
    if parser.next < len(tokens):
        raise parser.first_fault()
    return program
