"""The pages of docs/statement as HTML: each name in code is a link to its definition, and each definition says who names it.

Names are linked where the walk over a definition has found them, and never because a text is the same. The pages need nothing
from outside: their style and their script stand beside them, and so do the names that the search looks through.
"""

from __future__ import annotations

import html
import json
import re
from pathlib import Path
from typing import Iterable, NamedTuple, Sequence

from definitions import Definition, Failure, Library, Target, Token, token_at, tokens_of
from layout import without_silent_words
from reached import Item, library_word, member
from sources import Call, Declared, Sources
from statement_pages import Calls, Page, Part, Statement, Words, blocks, index, pages
from statement_words import LIBRARY, PAGES

STYLE, SCRIPT, NAMES = "statement.css", "statement.js", "names.js"
BESIDE = Path(__file__).resolve().parent / "statement_html"
TEMPLATE = """<!DOCTYPE html>
<html lang="en">
<meta charset="utf-8">
<meta name="viewport" content="width=device-width, initial-scale=1">
<title>{title}: scadserve</title>
<link rel="stylesheet" href="{style}">
<header><nav>{nav}</nav>
<div class="search">
<input type="search" id="search" placeholder="Search names ( / )" aria-label="Search names" autocomplete="off">
<ol id="found" hidden></ol></div><button id="theme" aria-label="Light or dark">◐</button></header>
<main>
{body}
</main>
<div id="says" role="tooltip" hidden></div>
<script src="{names}"></script>
<script src="{script}"></script>
</html>
"""


class Named(NamedTuple):
    """A word of some code with its place, and where it leads."""

    line: int
    column: int
    length: int
    address: str


class Links:
    """Where each definition and type stands, and who names it."""

    def __init__(self, statement: Statement) -> None:
        """The links of all pages."""
        self.library, self.sources = statement.library, Sources(statement.library.top)
        self.pages = {it.target: part.name for part in statement.parts for it in part.items}
        self.words = statement.words
        self.users: dict[Target, dict[Target, None]] = {}
        self.named: dict[Target, list[Named]] = {}
        self.of_calls: dict[tuple[str, str], list[Named]] = {}
        for part in statement.parts:
            for it in part.items:
                self.named[it.target] = self.named_in(it)
            for call in part.all_calls(statement):
                user = Target("call", call.crate, part.name, call.name)
                self.of_calls[call.crate, call.name] = self.named_in_call(call, user)

    def address(self, target: Target) -> str:
        """The address of a definition, a type or a call."""
        page = target.module if target.kind == "call" else self.pages[target]
        return f"{page}.html#{identity(target)}"

    def resolved(self, target: Target, word: str) -> Target | None:
        """The definition or the type that a name leads to, where it stands on a page."""
        if target.kind == "type":
            found: Target | None = Target("type", target.crate, "", target.name)
        else:
            definition = self.library.definition(member(target, word))
            found = definition.target if definition else None
        return found if found in self.pages else None

    def name(self, target: Target, word: str, token: Token, user: Target) -> list[Named]:
        """The link of a word; none where it leads to no page. The one that has the word is noted."""
        if target.crate not in self.library.crates:
            address = library_address(target, self.words)
            return [Named(token.line, token.column, len(token), address)] if address else []
        found = self.resolved(target, word)
        if found is None or found == user:
            return []
        self.users.setdefault(found, {})[user] = None
        return [Named(token.line, token.column, len(token), self.address(found))]

    def named_in(self, item: Item) -> list[Named]:
        """The links of a definition or a type."""
        if isinstance(item, Definition):
            found = self.library.named_in(item)
            return [it for target, word, token in found for it in self.name(target, word, token, item.target)]
        lines = [it.split("//")[0] for it in item.lines]
        return self.named_in_source(lines, item.path, item.target.crate, self.sources.scope(item.path), item.target)

    def named_in_call(self, call: Call, user: Target) -> list[Named]:
        """The links of a call."""
        lines = [it.split("//")[0] for it in call.lines]
        return self.named_in_source(lines, call.path, call.crate, call.scope, user)

    def named_in_source(self, lines: list[str], path: Path, crate: str, scope: dict[str, Target], user: Target) -> list[Named]:
        """The links of lines of a source: types by its imports, and what its clauses name by its ghost imports."""
        found: list[Named] = []
        for token in tokens_of(lines):
            for word in re.finditer(r"\w+|[^\w\s]+", token):
                place = token_at(word[0], token.line, token.column + word.start())
                before = token[: word.start()]
                target = scope.get(word[0]) if not before.endswith(".") else None
                target = target or (self.sources.type_named(path, crate, word[0]) if word[0][:1].isupper() else None)
                if target and target.kind != "module":
                    found += self.name(target, word[0], place, user)
        return found



def identity(target: Target) -> str:
    """The mark of a definition or a type on its page."""
    return f"{target.crate}.{target.name}"


def library_address(target: Target, pages: dict[str, str]) -> str:
    """The address of a name of the library, by the page of each such name; empty where no row has it."""
    word = library_word(target)
    return f"{pages[word]}.html#library.{html.escape(word)}" if word in LIBRARY and word in pages else ""


def linked(lines: Sequence[str], named: Iterable[Named], first: int = 0, sign: str = "--") -> str:
    """Lines of code in which names are links and comments are marked."""
    by_line: dict[int, list[Named]] = {}
    for it in named:
        by_line.setdefault(it.line, []).append(it)
    shown = (linked_line(line, sorted(set(by_line.get(number, []))), sign) for number, line in enumerate(lines, first))
    return "\n".join(without_silent_words(it) for it in shown)


def linked_line(line: str, named: list[Named], sign: str) -> str:
    """One line of code."""
    found, at = "", 0
    for it in named:
        if it.column >= at:
            word = line[it.column : it.column + it.length]
            found += html.escape(line[at : it.column]) + f'<a href="{it.address}">{html.escape(word)}</a>'
            at = it.column + it.length
    rest = line[at:]
    if sign in rest:
        rest, _, said = rest.partition(sign)
        return found + html.escape(rest) + f"<i>{html.escape(sign + said)}</i>"
    return found + html.escape(rest)


def prose(lines: Sequence[str]) -> str:
    """What the pages' own words are as HTML: headings, paragraphs, lists, tables and code."""
    found: list[str] = []
    for block in re.split(r"\n\n+", re.sub(r"```(\w+)\n(.*?)\n```", fenced, "\n".join(lines), flags=re.DOTALL)):
        block = block.strip("\n")
        heading = re.match(r"(#+) (.*)", block)
        if heading:
            size = len(heading[1])
            found.append(f"<h{size}>{spoken(heading[2])}</h{size}>")
        elif block.startswith("| "):
            found.append(table(block.split("\n")))
        elif block.startswith("- "):
            points = re.split(r"^- ", block, flags=re.MULTILINE)[1:]
            found.append("<ul>" + "".join(f"<li>{spoken(' '.join(it.split()))}</li>" for it in points) + "</ul>")
        elif block.startswith("\0"):
            found.append(f"<pre>{html.escape(block[1:].replace(chr(1), chr(10)))}</pre>")
        elif block and not block.startswith("<!--"):
            found.append(f"<p>{spoken(' '.join(block.split()))}</p>")
    return "\n".join(found)


def fenced(match: re.Match[str]) -> str:
    """A block of code as one paragraph, which no blank line in it cuts."""
    return "\n\n\0" + match[2].replace("\n", "\1") + "\n\n"


def table(lines: Sequence[str]) -> str:
    """A table; a row of a name of the library has its mark."""
    kept = [line[2:-2].replace("\\|", "\0").split(" | ") for line in lines if not line.startswith("|--")]
    rows = [[it.replace("\0", "|") for it in cells] for cells in kept]
    head = "".join(f"<th>{spoken(it)}</th>" for it in rows[0])
    body = ""
    for row in rows[1:]:
        word = row[0].strip("`")
        mark = f' id="library.{html.escape(word)}"' if LIBRARY.get(word) == row[-1] and len(row) == 2 else ""
        body += f"<tr{mark}>" + "".join(f"<td>{spoken(it)}</td>" for it in row) + "</tr>\n"
    return f"<table><tr>{head}</tr>\n{body}</table>"


def spoken(said: str) -> str:
    """Words with code, stress and links; a link to a page leads to the same one as HTML."""
    text = html.escape(said, quote=False)
    text = re.sub(r"`([^`]+)`", r"<code>\1</code>", text)
    text = re.sub(r"\*\*(.+?)\*\*", r"<b>\1</b>", text)
    return re.sub(r"\[([^\]]+)\]\((?:statement/)?([\w/]+)\.md\)", r'<a href="\2.html">\1</a>', text)


def comment_of(item: Item) -> str:
    """What is said of a definition or a type, or of the group that it stands in."""
    groups = item.groups if isinstance(item, Definition) else ()
    said = item.comment or next((it.comment for it in reversed(groups) if it.comment), ())
    return " ".join(" ".join(said).split())


def place_of(item: Item, library: Library) -> str:
    """Where a definition or a type stands in the sources."""
    if isinstance(item, Declared):
        return str(item.path.relative_to(library.top))
    file = library.file(item.target.crate, item.target.module)
    return f"{file.path.relative_to(library.top)}:{item.line}"



def item_section(item: Item, links: Links) -> str:
    """A definition or a type, with who names it."""
    sign = "--" if isinstance(item, Definition) else "//"
    code = linked(item.lines, links.named[item.target], 0, sign)
    users = list(links.users.get(item.target, {}))
    named = " ".join(f'<a href="{links.address(it)}">{html.escape(it.name)}</a>' for it in users)
    by = f"<details><summary>named by {len(users)}</summary><p>{named}</p></details>" if users else ""
    model = item.seen if isinstance(item, Declared) else ""
    seen = f"<p class=seen>A clause sees: <code>{html.escape(model)}</code></p>" if model else ""
    said = f"<p>{spoken(comment_of(item))}</p>" if item.comment else ""
    where = f"<span>{html.escape(place_of(item, links.library))}</span>"
    return f'<section id="{identity(item.target)}">{said}<pre>{code}</pre>{seen}<footer>{where} {by}</footer></section>'


def group_section(members: Sequence[Item], links: Links) -> str:
    """Definitions of one group below the line round them, or a single one."""
    first = members[0]
    if not isinstance(first, Definition) or not first.groups:
        return "\n".join(item_section(it, links) for it in members)
    lines = [it.line for it in first.groups]
    said = "".join(f"<p>{spoken(' '.join(it.comment))}</p>" for it in first.groups if it.comment)
    head = f"{said}<pre>{linked(lines, links.named[first.target], -len(lines))}</pre>"
    return f'<div class="group">{head}\n' + "\n".join(item_section(it, links) for it in members) + "\n</div>"


def call_section(call: Call, links: Links) -> str:
    """A call with its clauses."""
    code = linked(call.lines, links.of_calls[call.crate, call.name], 0, "//")
    return f'<section id="{call.crate}.{call.name}"><p>{spoken(" ".join(call.comment))}</p><pre>{code}</pre></section>'


def body_of(statement: Statement, part: Part, page: Page, links: Links) -> str:
    """The body of a page: what its Markdown has, with links."""
    title, head = PAGES[part.name]
    found = [f"<h1>{title}</h1>", *(f"<p>{spoken(it)}</p>" for it in head)]
    for block in blocks(statement, part):
        if isinstance(block, Words):
            found.append(prose(block.lines) if block.lines else prose(counts_of(page)))
        elif isinstance(block, Calls):
            found += [call_section(it, links) for it in block.calls]
        else:
            found.append(prose([block.title]))
            found += [group_section(it, links) for it in block.groups]
    return "\n".join(found)


def counts_of(page: Page) -> list[str]:
    """The lines of a page that say how much it is, from its heading up to the next one."""
    lines = page.text.split("\n")
    begin = lines.index("## How much it is")
    end = next(at for at in range(begin + 1, len(lines)) if lines[at].startswith("## "))
    return lines[begin:end]


def names_of(statement: Statement, links: Links) -> str:
    """What the search looks through, and what a link shows under the pointer."""
    rows = [[it.target.name, links.address(it.target), comment_of(it)] for part in statement.parts for it in part.items]
    calls = [(part.name, it) for part in statement.parts for it in part.all_calls(statement)]
    rows += [[it.name, f"{page}.html#{it.crate}.{it.name}", " ".join(it.comment)] for page, it in calls]
    rows += [[word, f"{page}.html#library.{word}", LIBRARY[word]] for word, page in statement.words.items() if word in LIBRARY]
    return "const NAMES = [\n" + ",\n".join(json.dumps(it, ensure_ascii=False) for it in rows) + "\n];\n"


def write_html(statement: Statement, folder: Path) -> None:
    """Writes all pages into a folder. Raises Failure where a link leads nowhere."""
    links, made = Links(statement), pages(statement)
    bodies = {"index": ("The statement", prose(index(statement, made).split("\n")))}
    for part, page in zip(statement.parts, made):
        bodies[part.name] = (PAGES[part.name][0], body_of(statement, part, page, links))
    check_links(bodies)
    folder.mkdir(parents=True, exist_ok=True)
    for name, (title, body) in bodies.items():
        nav = " ".join(
            f'<a href="{it}.html"{" aria-current=page" if it == name else ""}>{bodies[it][0]}</a>' for it in bodies
        )
        text = TEMPLATE.format(title=title, nav=nav, body=body, style=STYLE, script=SCRIPT, names=NAMES)
        (folder / f"{name}.html").write_text(text, encoding="utf-8")
    (folder / NAMES).write_text(names_of(statement, links), encoding="utf-8")
    for name in (STYLE, SCRIPT):
        (folder / name).write_text((BESIDE / name).read_text(encoding="utf-8"), encoding="utf-8")


def check_links(bodies: dict[str, tuple[str, str]]) -> None:
    """Raises Failure where a link leads to no mark, or a mark stands twice."""
    marks: dict[str, int] = {}
    for name, (_, body) in bodies.items():
        for mark in re.findall(r' id="([^"]+)"', body):
            marks[f"{name}.html#{mark}"] = marks.get(f"{name}.html#{mark}", 0) + 1
        marks[f"{name}.html"] = 1
    twice = [it for it, count in marks.items() if count > 1]
    wanted = {it for _, body in bodies.values() for it in re.findall(r'<a href="([^"]+)"', body)}
    lost = sorted(wanted - {*marks})
    if twice or lost:
        raise Failure(f"the pages as HTML have marks twice: {twice[:5]}, and links that lead nowhere: {lost[:5]}")
