"""The pages of docs/statement: what stands on each, its words and its counts."""

from __future__ import annotations

import re
import textwrap
from pathlib import Path
from typing import Iterable, NamedTuple, Sequence, Union

from definitions import Definition, Failure, Library
from layout import laid_call, laid_items
from reached import Cut, Item, Reached, in_groups, without_comment
from sources import Call, Sources
from statement_words import (
    ASSUMED,
    CUTS,
    EXAMPLE,
    FURTHER,
    HEADINGS,
    INDEX,
    LAWS,
    LIBRARY,
    NOTATION,
    PAGES,
    PROMISE,
    READING,
    WORKED,
    Heading,
)

CALL = "serve"
# The calls by which the program ends, the last one that it makes first, and the number of the status that they end with.
EXITS = ("serve_streams", "serve_to_exit")
PROGRAM = "run_program"
COUNTED = "@LINES@"
MARK = "<!-- Written by tools/statement.py. What is changed here is lost: change the definitions, or the tool's words. -->"


class Words(NamedTuple):
    """Lines of a page that no source has."""

    lines: list[str]


class Calls(NamedTuple):
    """Calls with their clauses, in one block of code."""

    calls: list[Call]


class Items(NamedTuple):
    """Groups of types and definitions, in one block of code below a heading."""

    title: str
    groups: list[list[Item]]


Block = Union[Words, Calls, Items]


class Part(NamedTuple):
    """What one page has of the sources: its calls, each group of which has a title, and its types and definitions."""

    name: str
    calls: list[tuple[str, list[Call]]]
    items: list[Item]

    def all_calls(self, statement: Statement) -> list[Call]:
        """The calls that stand on its page."""
        first = [statement.call, *statement.exits] if self.name == "PROMISE" else []
        return [*first, *(it for _, found in self.calls for it in found)]


class Statement(NamedTuple):
    """All that the pages rest on, page by page, and the first page that uses each name of the library."""

    library: Library
    call: Call
    exits: list[Call]
    program: str
    example: list[str]
    parts: list[Part]
    met: list[Cut]
    words: dict[str, str]
    depths: Reached

    def part(self, name: str) -> Part:
        """The part of a page."""
        return next(it for it in self.parts if it.name == name)

    def without_comment(self) -> list[str]:
        """What has no comment on any of the pages."""
        return without_comment([it for part in self.parts for it in part.items], self.library)


class Page(NamedTuple):
    """A page: its name, its text, and by class how many definitions it has and how many lines these take."""

    name: str
    text: str
    sizes: dict[str, list[int]]

    def lines(self) -> int:
        """How many lines its file has."""
        return self.text.count("\n")


def read(top: Path) -> Statement:
    """Reads what the pages rest on. Raises Failure where a call, a law or a cut is not there."""
    library, sources = Library(top), Sources(top)
    found = sources.calls(rf"pub fn {CALL}<", library.crates)
    if len(found) != 1:
        raise Failure(f"{len(found)} public calls are named {CALL}, and not 1")
    call = found[0]
    numbers = sources.calls(r"    pub fn number\(self\)", [call.scope["Status"].crate])
    exits = [*(it for name in EXITS for it in sources.calls(rf"pub fn {name}<", [call.crate])), *numbers]
    laws = {page: law_calls(sources, page, call.crate) for page in LAWS}
    reached = [Reached(library, sources, CUTS[at:]) for at in range(len(CUTS) + 1 + len(LAWS))]
    for it in reached:
        it.follow_calls([call, *exits])
    for at, page in enumerate(LAWS, len(CUTS) + 1):
        for it in reached[at:]:
            it.follow_calls([law for _, calls in laws[page] for law in calls])
    unmet = [it.name for it in CUTS if it not in reached[0].met]
    if unmet:
        raise Failure(f"tools/statement_words.py cuts {', '.join(unmet)}, which is not named there")
    parts = [Part("PROMISE", [], list(reached[0].items.values()))]
    for at, name in enumerate([it.page for it in CUTS] + list(LAWS), 1):
        parts.append(Part(name, laws.get(name, []), reached[at].beyond(*reached[:at])))
    program = body_of(call.path.parent / "program.rt", PROGRAM)
    words: dict[str, str] = {}
    for part, it in zip(parts, reached):
        words.update({word: part.name for word in it.words if word not in words})
    return Statement(library, call, exits, program, example(top), parts, list(reached[0].met), words, reached[0])


def law_calls(sources: Sources, page: str, home: str) -> list[tuple[str, list[Call]]]:
    """The laws of a page, by crate and in order. Raises Failure where a crate has none."""
    found = []
    for crate, names in LAWS[page].items():
        laws = sources.calls(rf"pub fn (?:{names})\(\)$", [crate or home])
        if not laws:
            raise Failure(f"tools/statement_words.py has laws of {crate or home}, which has none")
        found.append((crate or home, laws))
    return found


def body_of(path: Path, name: str) -> str:
    """A function of a file with its comment and its body; empty where there is no such file."""
    text = path.read_text(encoding="utf-8") if path.exists() else ""
    match = re.search(rf"^(?:///[^\n]*\n)*pub fn {name}\b.*?^}}$", text, re.MULTILINE | re.DOTALL)
    return match[0] if match else ""


def example(top: Path) -> list[str]:
    """The worked example, with the rows of the cases that it names. Raises Failure where one is not there."""
    rows: list[str] = []
    for crate, question, said in EXAMPLE:
        path = top / "crates" / crate / "stdout"
        lines = path.read_text(encoding="utf-8").splitlines() if path.exists() else []
        if question not in lines:
            raise Failure(f"crates/{crate}/stdout has no case `{question}`, with which the worked example is shown")
        answer = lines[lines.index(question) + 1].strip()
        shown = textwrap.wrap(answer, 124, initial_indent="    ", subsequent_indent="    ")
        rows += [*filled(said), "", *code([question, *shown], "text")]
    return rows


def filled(said: str, indent: str = "") -> list[str]:
    """A paragraph, or a point of a list, in lines of at most 128 columns."""
    return textwrap.wrap(said, 128, subsequent_indent=indent, break_long_words=False, break_on_hyphens=False)


def points(said: Iterable[str]) -> list[str]:
    """The points of a list."""
    return [line for it in said for line in filled(f"- {it}", "  ")]


def code(lines: Iterable[str], language: str) -> list[str]:
    """Lines that stand as they are."""
    return [f"```{language}", *lines, "```", ""]


def table(rows: Iterable[Sequence[str]]) -> list[str]:
    """A table whose first row has its titles."""
    body = ["| " + " | ".join(cell.replace("|", "\\|") for cell in it) + " |" for it in rows]
    return [body[0], "|" + "---|" * (body[0].count("|") - 1), *body[1:], ""]


def heading_of(crate: str) -> Heading:
    """The class of a crate's definitions. Raises Failure where there is none."""
    for it in HEADINGS:
        if crate in it.crates.split():
            return it
    raise Failure(f"no heading in tools/statement_words.py has the crate {crate}")


def by_class(sizes: dict[str, list[int]], into: dict[str, list[int]]) -> None:
    """Adds counts by crate to counts by class."""
    for crate, (definitions, lines) in sizes.items():
        size = into.setdefault(heading_of(crate).title, [0, 0])
        size[0] += definitions
        size[1] += lines


def promise_words(call: Call) -> list[Block]:
    """The promise in plain words and as it stands. Raises Failure where a clause has no words, or words have no clause."""
    if set(call.clauses()) != set(PROMISE):
        raise Failure(f"tools/statement_words.py has words for {sorted(PROMISE)}, and not for {sorted(call.clauses())}")
    said = [f"**{name}**: {PROMISE[name]}" for name in call.clauses()]
    plain = [f"Of each run of `{CALL}` that ends, in plain words, clause by clause:", "", *points(said), ""]
    return [Words(["## The promise", "", *plain, "And as it stands, which counts:", ""]), Calls([call])]


def call_blocks(calls: Iterable[Call]) -> list[str]:
    """Calls with their clauses, in one block."""
    lines = [line for it in calls for line in [*laid_call(it), ""]][:-1]
    return code(lines, "rust")


def exit_words(statement: Statement) -> list[Block]:
    """The calls by which the program ends, and the lines of the program's own, which no clause has."""
    first = ["## How the program begins and ends", "", *filled(FURTHER["exits"]), ""]
    return [Words(first), Calls(statement.exits), Words(code(statement.program.splitlines(), "rust"))]


def cut_words(statement: Statement) -> list[str]:
    """Of each name that stands on another page, what it is for."""
    rows = [(f"`{it.name}`", f"`{it.within}`", f"[{it.page}]({it.page}.md)", it.said) for it in statement.met]
    return ["## What stands on other pages", "", *table([("Name", "Is named by", "Page", "What it is"), *rows])]


def steps(statement: Statement, part: Part) -> list[Block]:
    """The definitions from above, with a heading for each step from the promise."""
    depths = statement.depths.depths
    levels: dict[int, list[list[Item]]] = {}
    for members in in_groups(part.items):
        levels.setdefault(min(depths[it.target] for it in members), []).append(members)
    found: list[Block] = [Words(["## The definitions, from above", "", *filled(FURTHER["steps"]), ""])]
    for depth in sorted(levels):
        found.append(Items(f"### Step {depth + 1}: {subjects(levels[depth])}", levels[depth]))
    return found


def subjects(level: list[list[Item]]) -> str:
    """What the definitions of one step are of, most of them first, and the fourth and further classes together."""
    counts: dict[str, int] = {}
    for it in (it for members in level for it in members):
        title = heading_of(it.target.crate).title.lower()
        counts[title] = counts.get(title, 0) + 1
    first = sorted(counts, key=lambda it: -counts[it])[:3]
    others = sum(counts.values()) - sum(counts[it] for it in first)
    return "; ".join([*(f"{title} {counts[title]}" for title in first), *([f"others {others}"] if others else [])])


def law_words(part: Part) -> list[Block]:
    """The laws of a page as they stand, crate by crate."""
    return [it for crate, calls in part.calls for it in (Words([f"## Laws of `{crate}`", ""]), Calls(calls))]


def how_much(sizes: dict[str, list[int]]) -> list[str]:
    """How much stands on a page by class, each line of the file counted."""
    rows: list[tuple[str, ...]] = [("What it is of", "What that is", "Definitions", "Lines", "Whose size")]
    for it in [it for it in HEADINGS if it.title in sizes]:
        definitions, lines = sizes[it.title]
        rows.append((it.title, it.about, f"{definitions:,}", f"{lines:,}", it.size))
    definitions = sum(it[0] for it in sizes.values())
    lines = sum(it[1] for it in sizes.values())
    rows.append(("the rest", "words, clauses, laws, tables and empty lines", "", f"@{lines}@", ""))
    rows.append(("together", "the whole file", f"{definitions:,}", COUNTED, ""))
    return ["## How much it is", "", "Each line of the file is counted.", "", *table(rows)]


def with_counts(lines: list[str]) -> str:
    """A page whose table says how many lines the file has, and how many are no definitions."""
    total = len(lines)
    text = "\n".join(lines) + "\n"
    return re.sub(r"@(\d+)@", lambda it: f"{total - int(it[1]):,}", text).replace(COUNTED, f"{total:,}")


def other_names(statement: Statement, part: Part) -> list[str]:
    """What to know of names that a file uses for those of another one, in one table."""
    said: dict[tuple[str, str], dict[str, None]] = {}
    for it in [it for it in part.items if isinstance(it, Definition)]:
        file = statement.library.file(it.target.crate, it.target.module)
        used = {token.split(".")[0] for _, _, token in statement.library.named_in(it)}
        for alias, original in file.renamed.items():
            if alias in used and alias in file.scope:
                said.setdefault((alias, what_it_is(original, file.scope[alias].name)), {})[it.target.name] = None
    rows = [(f"`{alias}`", what, of(list(users))) for (alias, what), users in sorted(said.items())]
    return ["## Other names", "", *table([("Name", "Stands for", "In"), *rows])] if rows else []


def of(users: list[str]) -> str:
    """The names of a few definitions, or how many there are."""
    return ", ".join(f"`{it}`" for it in users) if len(users) <= 4 else f"{len(users)} definitions"


def what_it_is(original: str, name: str) -> str:
    """What a name of a file's own stands for."""
    if original.endswith("TheVariants"):
        return f"before a dot, `{name}`, whose variant stands behind it"
    return f"`{original.split('{')[-1].split('::')[-1]}`"


def library_words(statement: Statement, part: Part) -> list[str]:
    """The names of the library that a page uses and none before it, in alphabetical order. Raises Failure where one has no
    words."""
    names = [word for word, page in statement.words.items() if page == part.name]
    found = sorted(names, key=lambda it: (it.isidentifier(), it.lower(), it))
    unknown = [it for it in found if it not in LIBRARY]
    if unknown:
        raise Failure(f"tools/statement_words.py has no words for {', '.join(unknown)} of the toolchain's library")
    rows = [("Name", "What it is"), *((f"`{it}`", LIBRARY[it]) for it in found)]
    said = FURTHER["library" if part.name == "PROMISE" else "more of the library"]
    return ["## Names of the library", "", *filled(said), "", *table(rows)] if found else []


def worked_laws(statement: Statement) -> list[Call]:
    """The laws that prove the worked example."""
    return [it for part in statement.parts for crate, calls in part.calls if crate == WORKED[0] for it in calls]


def blocks(statement: Statement, part: Part) -> list[Block]:
    """What stands on a page behind its head, in order. The place of its counts is empty words."""
    counts = Words([])
    if part.name != "PROMISE":
        body: list[Block] = [Items("## The definitions, from above", in_groups(part.items))]
        return [counts, *law_words(part), *body, Words([*other_names(statement, part), *library_words(statement, part)])]
    assumed = ["## What is assumed", "", *points([f"**{name}.** {said}" for name, said in ASSUMED]), ""]
    notation = ["## How to read it", "", *filled(READING), "", *table([("Written", "Read"), *NOTATION])]
    before = [*promise_words(statement.call), Words([*assumed, *cut_words(statement)]), counts]
    cube = ["## One cube", "", *statement.example, *filled(WORKED[1]), ""]
    before += [Words(cube), Calls(worked_laws(statement)), Words(notation)]
    behind = Words([*other_names(statement, part), *library_words(statement, part)])
    return [*before, *steps(statement, part), *exit_words(statement), behind]


def pages(statement: Statement) -> list[Page]:
    """All pages but the index."""
    return [page(statement, part) for part in statement.parts]


def page(statement: Statement, part: Part) -> Page:
    """One page: its head, what is promised there, how much it is, and its definitions."""
    sizes: dict[str, list[int]] = {}
    shown: list[list[str]] = []
    for block in blocks(statement, part):
        if isinstance(block, Items):
            laid, counted = laid_items(block.groups)
            by_class(counted, sizes)
            shown.append([block.title, *code(laid, "text")])
        else:
            shown.append(call_blocks(block.calls) if isinstance(block, Calls) else block.lines)
    shown[shown.index([])] = how_much(sizes)
    title, head = PAGES[part.name]
    lines = [f"# {title}", "", MARK, "", *(line for said in head for line in [*filled(said), ""])]
    lines += [line for it in shown for line in it]
    while not lines[-1]:
        lines.pop()
    return Page(part.name, with_counts(lines), sizes)


def index(statement: Statement, made: list[Page]) -> str:
    """The index: what each page is for, and how much it is by page and by class."""
    lines = ["# The statement", "", MARK, ""]
    for said in INDEX:
        lines += [*filled(said), ""]
    rows: list[tuple[str, ...]] = [("Page", "What it has", "Definitions", "Lines of the file")]
    for it in made:
        definitions = sum(size[0] for size in it.sizes.values())
        rows.append((f"[{it.name}](statement/{it.name}.md)", PAGES[it.name][1][0], f"{definitions:,}", f"{it.lines():,}"))
    total = sum(size[0] for it in made for size in it.sizes.values())
    rows.append(("together", "", f"{total:,}", f"{sum(it.lines() for it in made):,}"))
    lines += [*table(rows), "## By class", "", *filled(FURTHER["classes"]), ""]
    head = ("Class", *(it.name for it in made), "Lines together")
    classes: list[tuple[str, ...]] = [head]
    for heading in HEADINGS:
        counts = [it.sizes.get(heading.title, [0, 0])[1] for it in made]
        classes.append((heading.title, *(f"{it:,}" if it else "" for it in counts), f"{sum(counts):,}"))
    lines += table(classes)
    return "\n".join(lines).rstrip() + "\n"
