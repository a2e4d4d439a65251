"""Words of a source, and the tokens that they stand for: the crate `scad_lexer`."""

from __future__ import annotations

import re
from functools import lru_cache
from typing import NamedTuple

from .text_place import Fault, Place, least_too_large

in_line = rb"[^\n]"
open_comment = rb"/\*(?:(?!\*/).)*"
name_word = rb"[A-Za-z_][A-Za-z0-9_]*"
some_digits = rb"[0-9]+"
exponent_part = rb"[eE][+-]?" + some_digits
numeral_word = rb"(?:%b(?:\.[0-9]*)?|\.%b)(?:%b)?" % (some_digits, some_digits, exponent_part)
open_text = rb'"(?:\\%b|[^"\\\n])*' % in_line
symbols = (
    b"(", b")", b"[", b"]", b"{", b"}", b",", b";", b"=", b":", b"?", b"+", b"-", b"*", b"%", b"<", b">", b"!", b"#", b"^",
    b".", b"/", b"<=", b">=", b"==", b"!=", b"&&", b"||")

# Each word as long as possible: no part behind another one can take a byte from it. The first that matches is taken, so closed
# words stand before unclosed ones, and symbols last. Blank bytes are taken together.
words = (
    rb"(?P<Blank>[ \t\r\n]+|//%b*|%b\*/)" % (in_line, open_comment),
    rb"(?P<UnclosedComment>%b)" % open_comment,
    rb"(?P<Name>%b)" % name_word,
    rb"(?P<Special>\$%b)" % name_word,
    rb"(?P<Numeral>%b)(?P<NumeralAndLetter>[A-Za-z_])?" % numeral_word,
    rb'(?P<Text>%b")' % open_text,
    rb"(?P<UnclosedText>%b\\?)" % open_text,
    rb"(?P<Symbol>%b)" % b"|".join(map(re.escape, sorted(symbols, key=len, reverse=True))),
)

word_of_bytes = re.compile(b"|".join(words), re.DOTALL)

reserved = frozenset((
    "module", "function", "if", "else", "for", "intersection_for", "true", "false", "undef", "use", "include", "let", "each"))

numeral_class, name_class, child_count_class, special_class = "NUMERAL", "NAME", "$children", "SPECIAL"
text_class, end_class = "TEXT", "END"


class Token(NamedTuple):
    """A token by its class: one of those above, or a reserved name or symbol itself. It has a number or bytes."""

    kind: str
    at: Place
    value: int | bytes


class BadWord(Exception):
    """The fault of a word, and how many bytes of the word stand before it."""

    def __init__(self, kind: str, before: int) -> None:
        super().__init__(kind, before)
        self.kind = kind
        self.before = before


def zero_fraction(rest: bytes) -> bool:
    """Behind the whole part of a numeral: nothing, or a point and zeros."""
    return re.fullmatch(rb"(?:\.0*)?", rest) is not None


def decimal_from(digits: bytes) -> int:
    """The number that decimal digits write; one of more than 16 of them is too large, whatever it is."""
    significant = digits.lstrip(b"0")
    return int(significant or b"0") if len(significant) <= 16 else least_too_large


def numeral_meaning(word: bytes) -> int:
    """Its whole part, where only zeros are behind its point."""
    rest = word.lstrip(b"0123456789")
    if not zero_fraction(rest):
        raise BadWord("NotWhole", 0)
    number = decimal_from(word[:len(word) - len(rest)])
    if number >= least_too_large:
        raise BadWord("TooLarge", 0)
    return number


def letter_after_numeral(word: bytes) -> int:
    """The numeral's fault, or that of the letter."""
    numeral_meaning(word[:-1])
    raise BadWord("BadCharacter", len(word) - 1)


escape_of = {34: 34, 92: 92, 110: 10, 116: 9, 114: 13}


def bytes_written(inside: bytes) -> bytes:
    """The bytes that a text's inside writes."""
    written, at = bytearray(), 0
    while at < len(inside):
        byte = inside[at]
        if byte == 92 and inside[at + 1] in escape_of:
            written.append(escape_of[inside[at + 1]])
            at += 2
        elif byte != 92 and 32 <= byte <= 126:
            written.append(byte)
            at += 1
        else:
            raise BadWord("BadCharacter", 1 + at)
    return bytes(written)


@lru_cache(maxsize=1 << 12)
def class_and_value(kind: str, word: bytes) -> tuple[str, int | bytes]:
    """The class of the token that a word makes, which is no blank, and its number or bytes. (Most words come again.)"""
    if kind == "Name":
        name = word.decode("ascii")
        return name if name in reserved else name_class, word
    if kind == "Symbol":
        return word.decode("ascii"), word
    if kind == "Numeral":
        return numeral_class, numeral_meaning(word)
    if kind == "Text":
        return text_class, bytes_written(word[1:-1])
    if kind == "Special":
        return child_count_class if word == b"$children" else special_class, word[1:]
    if kind == "NumeralAndLetter":
        return numeral_class, letter_after_numeral(word)
    raise BadWord({"UnclosedComment": "OpenComment", "UnclosedText": "OpenText"}[kind], 0)


def word_meaning(kind: str, word: bytes, at: Place) -> Token:
    """The token that a word makes at a place, which is no blank."""
    its_class, value = class_and_value(kind, word)
    return Token(its_class, at, value)


def place_after(place: Place, word: bytes) -> Place:
    """The place behind these bytes: a newline begins a line."""
    newlines = word.count(b"\n")
    column = place.column + len(word) if not newlines else len(word) - word.rindex(b"\n")
    return Place(place.line + newlines, column)


def lexes(text: bytes) -> list[Token]:
    """What a whole source gives: its tokens, or its first fault."""
    tokens, offset = [], 0
    last, last_offset = Place(1, 1), 0  # (a place on the line at hand: blanks alone have newlines)
    for found in word_of_bytes.finditer(text):
        start, end = found.span()
        if start != offset:
            break
        kind, word, offset = str(found.lastgroup), found[0], end
        if kind != "Blank":
            at = Place(last.line, last.column + start - last_offset)
            try:
                tokens.append(word_meaning(kind, word, at))
            except BadWord as bad:
                raise Fault(bad.kind, place_after(at, word[:bad.before])) from None
        elif b"\n" in word:
            last, last_offset = place_after(last, text[last_offset:end]), end
    at = place_after(last, text[last_offset:offset])
    if offset < len(text):
        raise Fault("BadCharacter", at)
    return [*tokens, Token(end_class, at, b"")]
