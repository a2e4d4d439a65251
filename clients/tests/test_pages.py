"""The documents as pages: those that tools write are up to date, none is too long, and each choice has its reason."""

from __future__ import annotations

import functools
import re
import subprocess
import sys
import tempfile
import unittest
from pathlib import Path
from unittest import mock

from tests import calls

TOP = Path(calls.TOP)
PAGES = [*sorted(TOP.glob("*.md")), TOP / "crates/README.md", *sorted((TOP / "docs").rglob("*.md"))]
LONG = {
    "PROMISE.md", "ALGORITHM.md", "TALLY.md", "LAWS.md", "COSTS.md", "SPECIFICATION.md", "FAULTS.md", "PROOFS.md", "OPENSCAD.md"
}
# A page that tools/gallery.sh makes, with a line for each part's files.
WIDE = {"GALLERY"}
# What the phrases of docs/WORDS.md are not written in, beside all pages: the sources of these endings below these folders, and
# of crates the comments alone.
PLAIN = {
    "bench": (".py", ".sh", ".txt"),
    "bin": ("",),
    "clients/scadserve": (".py", ".js", ".css", ".html"),
    "clients/tests": (".py",),
    "crates": (".rt", ".antt"),
    "library": (".scad",),
    "model": (".py",),
    "tools": (".py", ".sh", ".css", ".js"),
}
# Phrases that comments of crates have, and so the pages made of these: a change of a comment has the crate proved again, so
# that they go with the next change there.
OF_CRATES = {"is no number", "is no list", "is no name", "so often"}
# Files that have the phrases, and why.
QUOTES = {
    "clients/tests/test_pages.py": "it tries the test itself",
    "docs/WORDS.md": "its list of phrases is left out",
    "crates/memo_core/src/fit.rt": "its first line is mended with the next change there",
    "crates/plain_text/src/memory.rt": "so is this one",
}
SOURCES = {".rt", ".antt", ".py", ".sh", ".txt", ".scad", ".rs"}
sys.path.insert(0, str(TOP / "tools"))

import statement  # noqa: E402
import statement_pages  # noqa: E402
from definitions import Definition, Failure, Library, Target, tokens_of  # noqa: E402
from house import Crate, House  # noqa: E402
from layout import laid_definition, laid_group, laid_type  # noqa: E402
from pages import about, tables  # noqa: E402
from reached import Cut, in_groups  # noqa: E402
from sources import Sources  # noqa: E402
from statement_words import Heading  # noqa: E402

STATUS = """/// How it ended.
pub enum Status {
    /// Well.
    Done,
}

impl Status {
    /// The number with which the program ends.
    pub fn number(self) -> u8
        ensures { result ≡ 0 }
    {
        0
    }
}
"""
WORDS = """-- What words are.
use Rattle.std.specs.Prelude.{ℕ, zero, suc, Bool, true, false}

-- whether it is a word
abbrev pub is_word : ℕ → Bool
is_word zero = false
is_word (suc n) = true

-- how long a word is
abbrev pub length_of : ℕ → ℕ
length_of n = n

-- never named
abbrev pub unused : ℕ
unused = 0
"""
ANSWERS = """-- What is answered.
use Rattle.std.specs.Prelude.{ℕ, ◌≡◌}
use Rattle.low.specs.Words.{is_word, length_of}
use Rattle.low.specs.declared.status.Status.{Status}
use Rattle.low.specs.declared.status.Status.TheVariants.{Done}

-- is told
abbrev pub Tells : ℕ → Status → Type 0
Tells word Done = is_word word ≡ is_word (length_of word)
"""
SERVER = """//! The server.

ghost use Rattle.high.specs.Answers.{Tells};
ghost use Rattle.low.specs.declared.status.Status.TheVariants as Status;

/// Serves.
pub fn serve<R: Threads>(rt: &R, word: u8) -> Status
    ensures told { Tells word result }
{
    Status::Done
}
"""
LENGTHS = """-- What lengths are.
use Rattle.std.specs.Prelude.{ℕ, ◌≡◌, true}
use Rattle.low.specs.Words.{is_word}

-- it is as long as a word
abbrev pub IsLong : ℕ → Type 0
IsLong n = is_word n ≡ true
"""
LAW = """//! Laws.

ghost use Rattle.law.specs.Lengths.{IsLong};

/// Words are long.
pub fn words_are_long()
    ensures { (n : ℕ) → IsLong (suc n) }
{}
"""


# The files of a server of a few lines, and the words that tools/statement_words.py has for it.
SMALL = {
    "low/src/status.rt": STATUS,
    "low/specs/Words.antt": WORDS,
    "high/specs/Answers.antt": ANSWERS,
    "high/src/server.rt": SERVER,
    "law/specs/Lengths.antt": LENGTHS,
    "law/src/lib.rt": LAW,
    "law/stdout": "is 1\n    yes\n",
}
SMALL_WORDS = """
HEADINGS = [
    Heading("Words", "Words are read.", "ours", "low"),
    Heading("Answers", "Words are answered.", "ours", "high"),
    Heading("Laws", "What follows.", "ours", "law"),
]
PROMISE = {"told": "It is told."}
LAWS = {"LAWS": {"law": "words_.*"}}
EXAMPLE = (("law", "is 1", "Is it?"),)
CUTS = (Cut("Tells", "length_of", "ALGORITHM", "how long it is"),)
"""


def write_small_server(top: Path) -> None:
    """Writes the crates of a server of a few lines below a folder."""
    for path, text in SMALL.items():
        file = top / "crates" / path
        file.parent.mkdir(parents=True, exist_ok=True)
        file.write_text(text, encoding="utf-8")


@functools.lru_cache(maxsize=None)
def statement_here() -> statement_pages.Statement:
    """What the pages of this repository rest on, read once."""
    return statement_pages.read(TOP)


def refused_phrases() -> list[str]:
    """The phrases that docs/WORDS.md lists as not written."""
    table = (TOP / "docs/WORDS.md").read_text(encoding="utf-8").split("## Phrases that are not written")[1]
    return re.findall(r"^\| `([^`]+)` \|", table, re.MULTILINE)


def phrases_in(text: str, phrases: list[str]) -> list[str]:
    """Those of the phrases that a text has, in any case and across lines; `there is no` is another phrase than `is no`."""
    flat = re.sub(r"[\s#*/\"\\]+", " ", text).lower()
    return [it for it in phrases if re.search(rf"(?<!there )\b{re.escape(it.lower())}\b", flat)]


def comments(text: str) -> str:
    """The lines of a source of a crate that are comments."""
    return "\n".join(it for it in map(str.strip, text.splitlines()) if it.startswith(("//", "--")))


class Written(unittest.TestCase):
    """The pages that tools write."""

    def check(self, tool: str) -> None:
        words = [sys.executable, str(TOP / "tools" / tool), "--check"]
        said = subprocess.run(words, stdout=subprocess.PIPE, stderr=subprocess.STDOUT, check=False)
        self.assertEqual((said.returncode, said.stdout.decode()), (0, ""))

    def test_the_statement_is_up_to_date(self) -> None:
        with mock.patch.object(statement, "read", lambda top: statement_here()):
            texts, missing = statement.written(TOP)
        self.assertEqual((missing, statement.out_of_date(TOP, texts)), ([], []), "write them by ./tools/statement.py")

    def test_the_audit_is_the_one_that_is_printed(self) -> None:
        self.check("audit.py")

    def test_the_tables_of_crates_are_up_to_date(self) -> None:
        self.check("pages.py")


class Form(unittest.TestCase):
    """The form of all pages."""

    def test_no_page_is_too_long(self) -> None:
        for page in PAGES:
            if page.name not in LONG:
                self.assertLessEqual(len(page.read_text(encoding="utf-8").splitlines()), 300, page.name)

    def test_lines_end_at_128_columns(self) -> None:
        for page in [it for it in PAGES if it.stem not in WIDE]:
            is_code = False
            for number, line in enumerate(page.read_text(encoding="utf-8").splitlines(), 1):
                is_code ^= line.startswith("```")
                if not is_code and not line.startswith(("|", "    ")):
                    self.assertLessEqual(len(line), 128, f"{page.name}:{number}")

    def test_each_choice_has_its_reason(self) -> None:
        pages = [it for it in PAGES if it.parent.name == "decisions" and it.name != "README.md"]
        self.assertTrue(pages)
        for page in pages:
            for entry in re.split(r"^- ", page.read_text(encoding="utf-8"), flags=re.MULTILINE)[1:]:
                entry = " ".join(entry.split("\n\n")[0].split())
                self.assertRegex(entry, r"^\*\*.+?\*\*.* \*Why:\* .+?( \*(Tried|Considered):\* .+)?$", page.name)
                self.assertNotRegex(entry, r"(?i):\* nothing else", page.name)

    def test_the_list_of_choices_names_each_page(self) -> None:
        folder = TOP / "docs/decisions"
        named = set(re.findall(r"\]\((\w+\.md)\)", (folder / "README.md").read_text(encoding="utf-8")))
        self.assertEqual(named, {it.name for it in folder.glob("*.md")} - {"README.md"})

    def test_each_theorem_has_its_call_and_its_files(self) -> None:
        lines = (TOP / "docs/THEOREMS.md").read_text(encoding="utf-8").splitlines()
        rows = [it.split(" | ") for it in lines if it.startswith("| ")]
        places = {"W": ["crates/{}/must-fail", "wrong-bodies/{}"], "C": ["crates/{}/stdout"], "T": ["clients/tests/{}"]}
        self.assertGreater(len(rows), 10)
        for _, contract, definitions, tried in rows[1:]:
            for calls_named, crate, file in re.findall(r"((?:`\w+`(?:, )?)+): `(\w+): (\w+)`", contract):
                source = (TOP / f"crates/{crate}/src/{file}.rt").read_text(encoding="utf-8")
                for name in re.findall(r"`(\w+)`", calls_named):
                    self.assertRegex(source, rf"pub fn {name}\b|ensures {name}\b")
            for group in definitions.split("; "):
                crate, files = group.replace("`", "").split(": ")
                for file in files.split(", "):
                    self.assertTrue((TOP / f"crates/{crate}/specs/{file}.antt").is_file(), f"{crate}: {file}")
            for kind, names in re.findall(r"\b([WCT]) ((?:`[\w.]+`(?:, )?)+)", tried):
                for name in re.findall(r"`([\w.]+)`", names):
                    self.assertTrue(any((TOP / it.format(name)).exists() for it in places[kind]), f"{kind} {name}")

    def test_phrases_that_are_not_written_are_not_there(self) -> None:
        phrases = refused_phrases()
        self.assertGreater(len(phrases), 15)
        for page in PAGES:
            text = page.read_text(encoding="utf-8")
            text = text.split("## Phrases that are not written")[0] if page.name == "WORDS.md" else text
            of_crates = OF_CRATES if page.parent.name == "statement" else set()
            self.assertEqual(set(phrases_in(text, phrases)) - of_crates, set(), page.name)
        for folder, endings in PLAIN.items():
            for file in [it for it in sorted((TOP / folder).rglob("*")) if it.suffix in endings and it.is_file()]:
                name = file.relative_to(TOP).as_posix()
                if name not in QUOTES and "/out/" not in name and "__pycache__" not in name:
                    text = file.read_text(encoding="utf-8")
                    of_crates = folder == "crates"
                    found = set(phrases_in(comments(text), phrases)) - OF_CRATES if of_crates else phrases_in(text, phrases)
                    self.assertEqual(sorted(found), [], name)

    def test_a_phrase_is_found_across_lines_and_not_where_there_is_none(self) -> None:
        phrases = ["so many", "is no program"]
        for text, found in (
            ("after so\nmany seconds", ["so many"]),
            ("So  Many", ["so many"]),
            ("whether it is no program", ["is no program"]),
            ("there is no program", []),
            ("also many", []),
        ):
            self.assertEqual(phrases_in(text, phrases), found, text)
        self.assertEqual(phrases_in(comments("-- so many\nx = so many\n"), phrases), ["so many"])
        self.assertEqual(phrases_in(comments("    x = so many;\n"), phrases), [])

    def test_names_of_the_code_are_there(self) -> None:
        folders = ("crates", "clients", "tools", "bench", "examples")
        files = [it for folder in folders for it in (TOP / folder).rglob("*") if it.suffix in SOURCES]
        words = {it.name for it in (TOP / "crates").iterdir()} | {it.name for it in TOP.iterdir()}
        for file in files:
            words.update(re.findall(r"\w+", file.read_text(encoding="utf-8")))
        for page in [it for it in PAGES if it.parent.name != "statement" and it.name not in ("CHANGELOG.md", "OPENSCAD.md")]:
            for name in re.findall(r"`(\w+_\w+)(?:`|\(| )", page.read_text(encoding="utf-8")):
                self.assertTrue(name in words, f"{page.name} has {name}, which is not a name of the sources")


class Definitions(unittest.TestCase):
    """How tools/definitions.py follows names, on crates of a few lines."""

    def setUp(self) -> None:
        folder = tempfile.TemporaryDirectory()
        self.addCleanup(folder.cleanup)
        self.top = Path(folder.name)

    def write(self, path: str, text: str) -> None:
        file = self.top / "crates" / path
        file.parent.mkdir(parents=True, exist_ok=True)
        file.write_text(text, encoding="utf-8")

    def reached(self, crate: str, module: str, name: str) -> list[str]:
        """The names of this test's crates that a definition reaches, sorted."""
        library = Library(self.top)
        definition = library.definition(Target("spec", crate, module, name))
        assert definition
        return sorted({it.name for it, _ in library.reached_by(definition) if it.crate in library.crates})

    def test_names_are_followed_by_their_imports(self) -> None:
        self.write("low/specs/Parts/Ends.antt", "-- ends\nabbrev pub last_of : ℕ → ℕ\nlast_of n = n\n")
        self.write(
            "high/specs/Uses.antt",
            "use Rattle.std.specs.Prelude.{ℕ, ◌+◌}\nuse Rattle.low.specs.Parts.Ends.{last_of as end_of}\n\n"
            "abbrev pub one : ℕ\none = 1\n\nabbrev pub sum : ℕ → ℕ\nsum n = end_of n + one\n",
        )
        self.assertEqual(self.reached("high", "Uses", "sum"), ["last_of", "one"])

    def test_bound_names_reach_nothing(self) -> None:
        self.write(
            "low/specs/Names.antt",
            "use Rattle.std.specs.Prelude.{ℕ, ◌≡◌}\n\nabbrev pub m : ℕ\nm = 1\n\nabbrev pub first : ℕ → ℕ\nfirst m = m\n\n"
            "abbrev pub Each : ℕ → Type 0\nEach n = (m : ℕ) → m ≡ n\n\nabbrev pub all : (ℕ → ℕ) → ℕ\nall f = f m\n\n"
            "abbrev pub lent : ℕ → ℕ\nlent n = (λ m. m) m\n",
        )
        self.assertEqual(self.reached("low", "Names", "first"), [])
        self.assertEqual(self.reached("low", "Names", "Each"), [])
        self.assertEqual(self.reached("low", "Names", "all"), ["m"])
        self.assertEqual(self.reached("low", "Names", "lent"), ["m"])

    def test_patterns_reach_the_types_of_their_variants(self) -> None:
        self.write(
            "low/specs/Trees.antt",
            "use Rattle.std.specs.Prelude.{ℕ}\n\n"
            "pub data Tree : Type 0 where\n  leaf : Tree\n  node : (left right : Tree) → Tree\n\n"
            "abbrev pub size : Tree → ℕ\nsize leaf = 0\nsize (node left right) = size left\n",
        )
        self.assertEqual(self.reached("low", "Trees", "size"), ["Tree"])

    def test_records_and_groups_reach_what_their_fields_and_parameters_name(self) -> None:
        self.write(
            "low/specs/Groups.antt",
            "use Rattle.std.specs.Prelude.{ℕ, ◌≡◌}\n\nabbrev pub Kind : Type 0\nKind = ℕ\n\n-- what all of these take\n"
            "module _ (k : Kind) where\n  pub record Has (n : ℕ) : Type 0 where\n    pub size : ℕ\n    pub is : size ≡ n\n",
        )
        self.assertEqual(self.reached("low", "Groups", "Has"), ["Kind"])

    def test_a_name_that_leads_nowhere_is_an_error(self) -> None:
        self.write("low/specs/Lost.antt", "use Rattle.std.specs.Prelude.{ℕ}\n\nabbrev pub one : ℕ\none = two\n")
        with self.assertRaisesRegex(Failure, "two leads nowhere"):
            self.reached("low", "Lost", "one")

    def test_a_form_that_is_not_known_is_an_error(self) -> None:
        self.write("low/specs/Odd.antt", "rewrite everything\n")
        with self.assertRaisesRegex(Failure, "not known"):
            self.reached("low", "Odd", "one")

    def test_comments_stay_with_their_definitions(self) -> None:
        self.write(
            "low/specs/Said.antt",
            "-- what the file is of\nuse Rattle.std.specs.Prelude.{ℕ}\n\n-- the first\nabbrev pub one : ℕ\none = 1\n\n"
            "abbrev pub two : ℕ\n-- of its equation\ntwo = 2\n",
        )
        file = Library(self.top).file("low", "Said")
        self.assertEqual(file.heading, ["what the file is of"])
        self.assertEqual([it.comment for it in file.definitions], [("the first",), ()])
        self.assertEqual(file.definitions[1].lines, ("abbrev pub two : ℕ", "-- of its equation", "two = 2"))

    def test_types_are_seen_as_their_models(self) -> None:
        self.write(
            "low/src/lists.rt",
            "/// Numbers in order.\n#[derive(Drop)]\npub struct Numbers {\n    items: Vec<u8>,\n}\n\nimpl Model for Numbers {\n"
            "    ghost Value = { List ℕ };\n\n    ghost view = { λ n. n.items.items };\n}\n",
        )
        declared = Sources(self.top).declared(Target("type", "low", "lists", "Numbers"))
        self.assertEqual(laid_type(declared), ["// Numbers in order.", "struct Numbers;  // a clause sees: List ℕ"])

    def test_names_have_their_places(self) -> None:
        self.write(
            "low/specs/Places.antt",
            "use Rattle.std.specs.Prelude.{ℕ, ◌≡◌}\n\n-- a number\nabbrev pub one : ℕ\none = 1\n\n"
            "-- a pair\npub record Pair (n : ℕ) : Type 0 where\n  pub first : n ≡ one\n  pub next : first ≡ one\n",
        )
        library = Library(self.top)
        pair = library.definition(Target("spec", "low", "Places", "Pair"))
        assert pair
        places = [(str(token), token.line, token.column) for target, _, token in library.named_in(pair)]
        self.assertEqual([it for it in places if it[0] == "one"], [("one", 1, 18), ("one", 2, 21)])
        for word, line, column in places:
            self.assertEqual(pair.lines[line][column : column + len(word)], word)


class Layout(unittest.TestCase):
    """How tools/layout.py lays definitions out."""

    def definition(self, text: str) -> Definition:
        folder = tempfile.TemporaryDirectory()
        self.addCleanup(folder.cleanup)
        file = Path(folder.name, "crates/low/specs/Some.antt")
        file.parent.mkdir(parents=True)
        file.write_text(text, encoding="utf-8")
        return Library(Path(folder.name)).file("low", "Some").definitions[0]

    def test_a_short_comment_stands_behind_and_equations_are_indented(self) -> None:
        found = laid_definition(self.definition("-- whether it is one\nabbrev pub is_one : ℕ → Bool\nis_one n = nat_eq n 1\n"))
        self.assertEqual(found, ["is_one : ℕ → Bool  -- whether it is one", "  is_one n = nat_eq n 1"])

    def test_what_goes_on_keeps_its_comment_above(self) -> None:
        text = "-- a sum\nabbrev pub sum : ℕ → ℕ\n    → ℕ\n-- its equation\nsum n m =\n    n + m\n"
        self.assertEqual(laid_definition(self.definition(text)), [
            "-- a sum", "sum : ℕ → ℕ", "    → ℕ", "  -- its equation", "  sum n m =", "      n + m",
        ])  # fmt: skip

    def test_plain_fields_share_a_line_and_statements_do_not(self) -> None:
        text = (
            "-- a pair\npub record Pair : Type 0 where\n  pub a : ℕ\n  pub b : List (List ℕ)\n  pub is : a ≡ 1\n  pub and : P "
            "a\n"
        )
        self.assertEqual(laid_definition(self.definition(text)), [
            "record Pair : Type 0 where  -- a pair", "  a : ℕ; b : List (List ℕ)", "  is : a ≡ 1", "  and : P a",
        ])  # fmt: skip

    def test_rows_of_a_table_share_a_line_and_other_equations_do_not(self) -> None:
        text = "-- a number\npub number : Kind → ℕ\nnumber One = some\nnumber (Two n) = n\n"
        text += "number Three = suc 2\nnumber Four = 4\n"
        self.assertEqual(laid_definition(self.definition(text)), [
            "number : Kind → ℕ  -- a number", "  number One = some; number (Two n) = n", "  number Three = suc 2",
            "  number Four = 4",
        ])  # fmt: skip

    def test_rows_of_a_table_of_texts_share_a_line(self) -> None:
        text = "-- a word\npub word : Kind → List ℕ\nword One = codes \"one\"\nword Two = codes \";\"\n"
        text += "word Three = codes \"th\" ++ codes \"ree\"\nword Four = codes \"four\"\n"
        self.assertEqual(laid_definition(self.definition(text)), [
            "word : Kind → List ℕ  -- a word", "  word One = codes \"one\"; word Two = codes \";\"",
            "  word Three = codes \"th\" ++ codes \"ree\"", "  word Four = codes \"four\"",
        ])  # fmt: skip

    def test_rows_of_a_table_of_lists_of_texts_share_a_line(self) -> None:
        text = "-- words\npub words : Kind → List (List ℕ)\nwords One = []\nwords Two = codes \"a\" ∷ codes \"b\" ∷ []\n"
        text += "words Three = Two ∷ []\nwords Four = codes \"c\" ∷ []\n"
        self.assertEqual(laid_definition(self.definition(text)), [
            "words : Kind → List (List ℕ)  -- words", "  words One = []; words Two = codes \"a\" ∷ codes \"b\" ∷ []",
            "  words Three = Two ∷ []", "  words Four = codes \"c\" ∷ []",
        ])  # fmt: skip

    def test_no_word_of_a_definition_is_lost(self) -> None:
        read = statement_here()
        silent = {"pub", "abbrev", "unfoldable", ";"}
        count = 0
        for part in read.parts:
            for it in [it for it in part.items if isinstance(it, Definition)]:
                lines = [line for line in it.lines if not line.lstrip().startswith("unfolding ")]
                wanted = [str(token) for token in tokens_of(lines) if token not in silent]
                self.assertEqual([str(it) for it in tokens_of(laid_definition(it)) if it not in silent], wanted, it.target.name)
                count += 1
        self.assertGreater(count, 1000)

    def test_no_comment_of_a_definition_is_lost(self) -> None:
        read = statement_here()
        for part in read.parts:
            for members in in_groups(part.items):
                text = " ".join(re.sub(r"(?:--|//) ", " ", "\n".join(laid_group(members))).split())
                for it in members:
                    for said in it.comment:
                        self.assertIn(" ".join(said.split()), text, it.target.name)


class SmallServer(unittest.TestCase):
    """A server of a few lines, in the place of the repository."""

    def setUp(self) -> None:
        folder = tempfile.TemporaryDirectory()
        self.addCleanup(folder.cleanup)
        self.top = Path(folder.name)
        write_small_server(self.top)
        words: dict[str, object] = {"Heading": Heading, "Cut": Cut}
        exec(SMALL_WORDS, words)
        self.change(**{name: value for name, value in words.items() if name.isupper()})

    def change(self, **values: object) -> None:
        """Puts other words in place of the tool's own."""
        for name, value in values.items():
            patch = mock.patch.object(statement_pages, name, value)
            patch.start()
            self.addCleanup(patch.stop)

    def write(self, path: str, text: str) -> None:
        file = self.top / "crates" / path
        file.parent.mkdir(parents=True, exist_ok=True)
        file.write_text(text, encoding="utf-8")


class Statement(SmallServer):
    """What tools/statement.py writes of a server of a few lines, and what it refuses."""

    def texts(self) -> dict[str, str]:
        """The text of each page."""
        return {Path(it).stem: text for it, text in statement.written(self.top)[0].items()}

    def test_the_promise_has_just_what_the_clauses_reach_from_above(self) -> None:
        text = self.texts()["PROMISE"]
        self.assertIn("- **told**: It is told.", text)
        self.assertIn("\nTells : ℕ → Status → Type 0  -- is told\n  Tells word Done = ", text)
        self.assertIn("\nenum Status {  // How it ended.\n    Done,  // Well.\n}", text)
        self.assertNotIn("unused", text)
        self.assertLess(text.index("\nTells :"), text.index("\nis_word :"))
        self.assertIn("```text\nis 1\n    yes\n```", text)

    def test_each_line_of_a_page_is_counted(self) -> None:
        for name in ("PROMISE", "ALGORITHM", "LAWS"):
            text = self.texts()[name]
            rows = [it.split(" | ") for it in text.splitlines() if it.startswith("| ") and it.endswith((" | ours |", " |  |"))]
            lines = [int(it[3]) for it in rows]
            self.assertEqual((sum(lines[:-1]), lines[-1]), (text.count("\n"), text.count("\n")), name)
            self.assertIn(f"| {lines[-1]} |", self.texts()["STATEMENT"])

    def test_what_is_cut_stands_on_its_own_page(self) -> None:
        texts = self.texts()
        self.assertNotIn("length_of :", texts["PROMISE"])
        self.assertIn("| `length_of` | `Tells` | [ALGORITHM](ALGORITHM.md) | how long it is |", texts["PROMISE"])
        self.assertIn("length_of : ℕ → ℕ", texts["ALGORITHM"])
        self.assertNotIn("is_word :", texts["ALGORITHM"])

    def test_laws_stand_with_what_they_name_beyond_the_promise(self) -> None:
        text = self.texts()["LAWS"]
        self.assertLess(text.index("pub fn words_are_long()"), text.index("\nIsLong :"))
        self.assertNotIn("is_word :", text)

    def test_a_page_that_is_out_of_date_or_no_longer_written_is_told(self) -> None:
        texts, _ = statement.written(self.top)
        for path, text in texts.items():
            (self.top / path).parent.mkdir(parents=True, exist_ok=True)
            (self.top / path).write_text(text, encoding="utf-8")
        self.assertEqual(statement.out_of_date(self.top, texts), [])
        (self.top / "docs/statement/LAWS.md").write_text("other\n", encoding="utf-8")
        (self.top / "docs/statement/OLD.md").write_text("old\n", encoding="utf-8")
        self.assertEqual(statement.out_of_date(self.top, texts), ["docs/statement/LAWS.md", "docs/statement/OLD.md"])

    def refuses(self, said: str) -> None:
        """No page is written, for a reason that is told."""
        with self.assertRaisesRegex(Failure, said):
            statement.written(self.top)

    def test_laws_that_are_not_there_are_refused(self) -> None:
        self.change(LAWS={"LAWS": {"low": "words_.*"}})
        self.refuses("low, which has none")

    def test_a_cut_that_nothing_names_is_refused(self) -> None:
        self.change(CUTS=(Cut("Tells", "unused", "ALGORITHM", ""),))
        self.refuses("cuts unused")

    def test_an_example_that_no_case_shows_is_refused(self) -> None:
        self.change(EXAMPLE=(("law", "is 2", "Is it?"),))
        self.refuses("no case `is 2`")

    def test_a_definition_without_a_comment_is_told(self) -> None:
        self.write("low/specs/Words.antt", WORDS.replace("-- whether it is a word\n", ""))
        _, missing = statement.written(self.top)
        self.assertEqual(missing, ["crates/low/specs/Words.antt:4: is_word has no comment"])

    def test_a_crate_without_a_heading_is_refused(self) -> None:
        self.change(HEADINGS=statement_pages.HEADINGS[1:])
        self.refuses("no heading .* low")

    def test_a_clause_without_plain_words_is_refused(self) -> None:
        self.change(PROMISE={})
        self.refuses("not for .*told")

    def test_a_name_of_the_library_without_words_is_refused(self) -> None:
        self.change(LIBRARY={})
        self.refuses("no words for")


class Crates(unittest.TestCase):
    """How tools/pages.py writes the crates' own first lines."""

    def setUp(self) -> None:
        folder = tempfile.TemporaryDirectory()
        self.addCleanup(folder.cleanup)
        self.top = Path(folder.name)
        (self.top / "crates/low/src").mkdir(parents=True)
        said = "//! Sides, by a `|` of\n//! planes. More is said.\n\npub mod side;\n"
        (self.top / "crates/low/src/lib.rt").write_text(said, encoding="utf-8")

    def test_a_crate_says_one_sentence_of_itself(self) -> None:
        self.assertEqual(about(self.top, "low"), "Sides, by a `\\|` of planes.")

    def test_each_layer_has_a_table(self) -> None:
        house = House([("planes", "sides of planes")], {"low": Crate("low", 0, [])})
        self.assertIn(
            "**Planes:** sides of planes.\n\n| Crate | What it is |\n|---|---|\n| `low` | Sides, ", tables(house, self.top)
        )


if __name__ == "__main__":
    unittest.main()
