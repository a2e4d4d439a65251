"""The words of the pages of docs/statement that no source has: what each page is for, the promise in plain words, the classes
of definitions, and the names of the library."""

from __future__ import annotations

from typing import NamedTuple

from reached import Cut


class Heading(NamedTuple):
    """A class of definitions: its name, what these are, whose size that is, and the crates in which they stand."""

    title: str
    about: str
    size: str
    crates: str


# A crate whose definitions are reached and that is of no class is an error.
HEADINGS: list[Heading] = [
    Heading(
        "Bytes and words",
        "Bytes as they are read and written, the numerals and names that they spell, and the words of the command line.",
        "the program's own",
        "plain_text outside_io text_place run_words",
    ),
    Heading(
        "Scripts and sessions",
        "A script is a list of clients with their commands. A session is the state of one client. A reply answers one command.",
        "the program's own",
        "script_reader edit_session export_limits reply_text script_run big_input",
    ),
    Heading(
        "Syntax",
        "How a source is cut into tokens, and which tokens write which program.",
        "the language's own: each token, each form of the grammar and each first fault of a text has its line",
        "scad_lexer scad_ast scad_grammar scad_parser",
    ),
    Heading(
        "Values",
        "What expressions are made of: numbers, truths, texts, lists and ranges, with the tables of operators and functions.",
        "the language's own: one equation for each row of its tables",
        "scad_value scad_builtin",
    ),
    Heading(
        "Points, planes, trees and moves",
        "Points and planes in whole numbers, trees of operations over sets of planes, and the steps that move shapes.",
        "that of the geometry",
        "plane_predicate csg_tree int_transform",
    ),
    Heading(
        "Shapes",
        "The shapes that calls of a source write, with the first fault of each.",
        "the language's own: one shape for each module that makes one, with the checks of its arguments",
        "primitives round_four scad_hull",
    ),
    Heading(
        "Meaning of a source",
        "Scopes, calls, evaluation, instances, and the tree that a program means.",
        "the language's own: one equation for each form of the grammar and for each module",
        "scad_definitions scad_scope scad_func scad_modules "
        "scad_design scad_meaning",
    ),
    Heading(
        "Solids, faces, text",
        "What a tree is as a solid, what bounds it, and which text has these faces.",
        "that of the geometry",
        "plane_polygon bsp_tree bsp_partition bsp_boolean facet_cut closed_surface off_text watertight tree_export",
    ),
    Heading(
        "The memo's books",
        "The clients share one memo of solids. Its tally is that of a memo which one client after another uses.",
        "the program's own",
        "memo_core subtree_memo parallel_eval",
    ),
    Heading(
        "Hulls, rays and costs",
        "What laws speak of beyond the promise: hulls of points, crossings of faces, and counts of evaluations.",
        "the laws'",
        "closed_faces shape_hulls source_laws ray_crossings one_cube",
    ),
    Heading(
        "Statuses",
        "What the program reads, writes and answers as a whole.",
        "the program's own",
        "script_service script_server",
    ),
]

# What each page is: its title, and the paragraphs at its head, of which the index has the first.
PAGES: dict[str, tuple[str, tuple[str, ...]]] = {
    "PROMISE": (
        "The promise",
        (
            "What `serve` promises, and each definition that a reader has to believe so that the promise says what it means.",
            "The prover has checked that the code meets the clauses below. Only a reader can judge whether the definitions "
            "say what is meant, and this page is for that. A reader who trusts this page, and what is assumed, can trust "
            "three things: a status says what was done; the replies of a client are those that its commands define, except "
            "where memory ran out; and each solid's text is the watertight boundary of what its source means. No other page "
            "is needed for that. That a solid comes, and not a limit that its tree doesn't pass, is said by `AnswersSource` "
            "on [ALGORITHM](ALGORITHM.md).",
        ),
    ),
    "ALGORITHM": (
        "Which text it is",
        (
            "Which of the texts that bound a tree is returned, and when a limit of size comes in place of a text.",
            "Many texts bound a tree: faces may be cut in other ways, and vertices may have another order. The field `rule` "
            "of `AnswersExport` says which text is returned, as one function of the unit and the source. A reader who only "
            "wants to know that a part is right needs none of this.",
        ),
    ),
    "TALLY": (
        "The tally",
        (
            "What the printed tally says: the memo, its journal, and the weight of a client's entries.",
            "It is printed if `--tally` asks for it. No other byte of the output rests on this page.",
        ),
    ),
    "LAWS": (
        "Laws",
        (
            "What follows: that the definitions leave nothing open, and what a maker may rely on in each text.",
            "These are public calls that do nothing when they run. Their clauses are proved over the definitions of the "
            "other pages. The first laws show that the definitions can be met, and that they leave exactly one answer: each "
            "source has exactly one meaning or first fault. So some judge of shapes is right, as `IsMeaning` requires.",
        ),
    ),
    "COSTS": (
        "Costs",
        (
            "How many evaluations a program's meaning takes, by its tokens and by what it counts.",
            "These laws are about the meaning of a program, not about the evaluator's steps: no contract ties the two.",
        ),
    ),
}

INDEX = (
    "The statement is what the program's proof proves. It has five pages, which `tools/statement.py` writes from the "
    "sources, and a test compares them with the sources. [PROMISE](statement/PROMISE.md) is the one to read: it has the "
    "contract of the call `serve`, what is assumed, and each definition that a reader has to believe. The other pages say "
    "more.",
    "A release has the same pages as HTML, in `share/doc/scadserve/docs/statement`: there each name is a link to its "
    "definition, whose comment shows under the pointer, each definition says who uses it, and there is a search. In the "
    "sources `tools/statement.py --html FOLDER` makes them.",
)

# Names that stand on another page than what names them. One that is not named there is an error. The first page on which one
# stands has all that it reaches beyond PROMISE, and the next one what it reaches beyond both.
CUTS: tuple[Cut, ...] = (
    Cut(
        "AnswersExport",
        "AnswersSource",
        "ALGORITHM",
        "which of the texts that bound the tree is answered, and which limit comes in place of one: one function of unit and "
        "source",
    ),
    Cut(
        "TellsTally",
        "HaveLegalJournal",
        "TALLY",
        "where the tally is printed: it is one that a memo can have, asked call by call",
    ),
)

# The worked example: cases that the gate runs, each with its crate and what it shows.
EXAMPLE: tuple[tuple[str, str, str], ...] = (
    (
        "language_cases",
        "program cube([1.0,2,3]);",
        "What the promise says of a cube, with rows of the specification that the gate runs, whose answers were written "
        "by hand. A source is bytes. `Lexes` says its tokens, each as long as possible, and `WholeProgram` the one "
        "program that these write; each name, number and sign has the place at which it begins, and `1.0` is the whole "
        "number 1:",
    ),
    (
        "language_cases",
        "tree cube([1,2,3]);",
        "`Means` says which tree this program means: the `meet` of six half spaces, which are those of a box. The row has"
        " it by its sides, as x from 0 to 1, y from 0 to 2 and z from 0 to 3:",
    ),
    (
        "server_cases",
        "serve run / a put 1 cube([1,2,3]);|a export|",
        "`IsWatertightBoundary` says what a text has to be for that tree: 4OFF, whose faces lie on the six planes, turn "
        "left seen from outside, and cover each point of one plane exactly where the box begins or ends. A client `a` "
        "that puts this line and asks for an export is answered so (`|` ends a line): `ok` with the number of lines, and "
        "then the solid in 16 lines, which are a head, 8 vertices (x y z w, in homogeneous coordinates) and 6 faces of 4 "
        "corners each, told by their numbers:",
    ),
)

# The crate whose laws prove the worked example, and the words before them.
WORKED = (
    "one_cube",
    "And it is proved, as a law whose words stand on [LAWS](LAWS.md), from the bytes of the source to those of the text. "
    "`worked_source` is the row's source without a newline, and by `one_reply` it has no other reply:",
)

FURTHER: dict[str, str] = {
    "steps": "`StatusTells` and what else a clause names are the first step; what these name is the second, and so on, "
    "each once. The calls at the end of the page name the last ones of the first step, from `ExitTells` on. Behind a step "
    "stands what its definitions are of, and how many.",
    "exits": "The program makes the first of these calls, which hands on to the second one, and ends with the number of "
    "its status. The last lines are the program's own, and have no clause.",
    "library": "These stand in the toolchain's library, whose own definitions say the same in full. The other pages have "
    "tables of those that they use beyond these.",
    "more of the library": "Beyond those of the pages before.",
    "classes": "Lines of definitions and types with their comments, by what they are of.",
}

READING = (
    "Each definition has a comment that says what it means, behind its first line or above it, and then its text, which "
    "counts. What is indented belongs to the definition above it. The language is antt, in which a statement is a type; "
    "what has braces is a type or a trait of the sources. The words `pub`, `abbrev` and `unfoldable` are left out, of "
    "which only files and proofs take notice, and so are imports. A name without a definition stands in one of the two "
    "tables at the end."
)

# The laws of each page that has some: their crates in order, each with the names that count, as a pattern. No crate is the
# one of the promise itself.
LAWS: dict[str, dict[str, str]] = {
    "LAWS": {
        "": r"\w+",
        "csg_tree": "joins_keep_within_reach",
        "tree_export": "a_box_has_its_text",
        "one_cube": r"\w+",
        "scad_meaning": "programs_mean_proper_trees",
        "closed_faces": r"\w+",
        "shape_hulls": r"\w+",
        "source_laws": r"designs_\w+|placed_\w+|programs_keep_\w+",
        "watertight": r"\w+",
        "ray_crossings": r"\w+",
    },
    "COSTS": {"source_laws": r"\w+_take_few_evaluations|\w+_take_more"},
}

# The promise in plain words, clause by clause. A clause of the call that has no words here is an error, and so is the opposite.
PROMISE: dict[str, str] = {
    "told": "The status tells what was done. At `Done` the words chose settings, the whole input was read, and just its "
    "output was written. The replies of each client are those that its own commands define, whatever the order of "
    "threads: `AllFit` takes the commands of each client alone. It is so but for where memory ran out: there a reply is "
    "`nomem`, and the status may be `Done`. Each solid is the watertight boundary of the tree that the client's source "
    "means. Each other status says which fault there was, and what was written before it; `NoMemory` says that the output "
    "ended early.",
    "reads": "Where the words are outside the grammar, or choose the demonstration, nothing is read. Whatever the status,"
    " no more bytes are read than a script may have, and those of one read more.",
    "causes": "A source that failed is told as that, and so is a sink. The counts of their faults never fall.",
    "complete": "Where neither count rose and the words choose settings, the status is `Done`, `BadScript` or `NoMemory`."
    " This follows from `told`: a `ReadFault` or a `WriteFault` tells that a count rose, and `BadWords` that "
    "no settings are chosen.",
    "script": "Where the source tells its bytes and these are a script, the status is not `BadScript`. This follows from "
    "`told`, by which the bytes had a fault then, and from the law that no bytes are both "
    "(`bytes_are_one_script`).",
    "no_script": "Where a script is asked for, and the bytes have a fault, the status is not `Done`. This follows in the same "
                 "way.",
}

# What is assumed, and what is not claimed.
ASSUMED: list[tuple[str, str]] = [
    (
        "The run ends",
        "A contract speaks of a call that returns. That `serve` returns is not claimed, and nothing is claimed of time, of "
        "fairness or of how much memory is used. Memory may run out at any command but a `cut` and one that is refused: the "
        "answer says so, and the state stays.",
    ),
    (
        "The toolchain",
        "Rattle's prover checks each contract. Its two compilers, and clang behind one of them, make the program from the text "
        "that was checked. Both are trusted, and so are the C library and the operating system.",
    ),
    (
        "The ported crates",
        "The kit's crates `itoa`, `lru`, `indexmap`, `smallvec`, `clap`, `sha2` and `hex` are proved in the kit against "
        "their own statements. Those statements are trusted; `tools/audit.py` prints those of the calls that the program "
        "makes. A clause says what a call does with the source and the sink that it is given, and not that it touches "
        "nothing else. Some libraries of the kit reach files and streams by number; `tools/house.py` refuses a crate that"
        " stands on any but these seven, which reach none.",
    ),
    (
        "Standard input and output",
        "`serve` takes any source and any sink, and `serve_streams` any reader and any writer of std; their clauses are "
        "of the bytes that these tell, as those in memory do. The program hands in standard input and standard output, "
        "which tell none: there `Consumes`, `IsAtEnd` and `Appends` hold of anything, and this is the one edge. What is "
        "trusted is what the system's standard input and output do: that a read gives the next bytes, that a write takes "
        "those that it is given, and that each says how many.",
    ),
    (
        "The first step",
        "`run_program` takes the words behind the program's name and hands them, with standard input and standard output, to "
        "`serve_streams`. It is proved safe and has no clause: its lines are to be read, with those that take the words, in "
        "`crates/script_server/src/program.rt`.",
    ),
    (
        "These definitions",
        "That they say what is meant is for the reader to judge. The [laws](LAWS.md) show that they leave nothing open, and "
        "that `IsMeaning`, which speaks of each right judge of shapes, is not empty: there is one.",
    ),
]

NOTATION: list[tuple[str, str]] = [
    ("`(x : A) → P`", "for each `x` of the type `A`, `P`; without a name, `P → Q`: where `P` holds, so does `Q`"),
    ("`(x : A) × P`", "there is an `x` of the type `A` with `P`; without a name, `P × Q`: both hold, or a pair"),
    ("`P ⊎ Q`", "one of the two holds"),
    ("`⊥`, `P → ⊥`", "never; `P` doesn't hold"),
    ("`∥ P ∥₁`", "`P` holds, and no more is said about how"),
    ("`Unit {0}`, `⊤`", "always"),
    ("`x ≡ y`, `x ≢ y`", "equal, not equal"),
    ("`f x y`", "the function `f` of `x` and `y`; `λ x. t` is the function that gives `t` for `x`"),
    ("`f : A → B`", "`f` takes an `A` and gives a `B`; its equations follow, and the first that fits counts"),
    ("`data T : Type 0 where`", "the type of its variants, which follow with what each holds"),
    ("`{A : Type 0} →`", "for each type `A`, which is found by what follows"),
    ("`elim x [ p ↦ a | q ↦ b ]`", "`a` where `x` is `p`, and `b` where it is `q`"),
    ("`A → Type 0`", "a statement about an `A`; a record is the statement that each of its fields holds"),
    ("`record { a = x }`", "the record whose field `a` is `x`; `record r { a = x }` is `r` but for that; `r.a` is the field"),
    ("`u8` to `u64`, `i64`, `bool`, `Vec`", "in a type of the sources: `ℕ`, `ℤ`, `Bool` and `List`"),
    ("`x.now`, `x.old`, `x.new`", "what a reference points to: in a call that changes it, before and after"),
    ("`S.left`, `K.held`", "what the trait of a source or a sink tells of one"),
    (
        "`I.remaining`, `O.contents`",
        "the bytes that a reader of std has left, and those that a writer has taken, where it tells them",
    ),
    ("`mutual`, `module _ (x : A) where`", "definitions that use one another; definitions that all take `x` first"),
]

# The names of the toolchain's library that are reached. One that has no words here is an error.
LIBRARY: dict[str, str] = {
    "ℕ": "a whole number from 0 on, of any size; `zero` is 0 and `suc n` is `n + 1`",
    "zero": "0",
    "suc": "one more",
    "ℤ": "a whole number, of any size; `pos 5` is 5 and `negsuc 4` is -5",
    "pos": "a number from 0 on, as a whole number",
    "negsuc": "`negsuc n` is `-(n + 1)`",
    "+": "the sum",
    "-": "the difference, and 0 where it would be below 0",
    "*": "the product",
    "/": "the quotient, rounded down",
    "%": "the remainder",
    "^": "the power",
    "<": "below",
    "≤": "at most",
    "+ℤ": "the sum of whole numbers",
    "-ℤ": "the difference of whole numbers",
    "*ℤ": "the product of whole numbers",
    "<ℤ": "below, of whole numbers",
    "≤ℤ": "at most, of whole numbers",
    "∣": "divides",
    "neg_ℤ": "the opposite number",
    "unsigned_abs": "a number without its sign",
    "int_div": "the quotient, rounded towards 0",
    "int_rem": "the remainder, with the sign of the dividend",
    "int_eq": "whether two whole numbers are equal",
    "int_lt": "whether the first whole number is below the second",
    "int_le": "whether the first whole number is at most the second",
    "int_cmp": "the order of two whole numbers",
    "nat_eq": "whether two numbers from 0 on are equal",
    "nat_lt": "whether the first is below the second",
    "nat_le": "whether the first is at most the second",
    "eqb": "whether two numbers from 0 on are equal",
    "==": "whether two numbers from 0 on are equal",
    "min": "the lower of two numbers",
    "max": "the higher of two numbers",
    "Bool": "a truth: `true` or `false`",
    "true": "true",
    "false": "false",
    "not": "the opposite truth",
    "&&": "both are true",
    "||": "one is true",
    "beq": "whether two truths are equal",
    "cond": "`cond b x y` is `x` where `b` is true, else `y`",
    "if": "`if b then x else y`",
    "IsTrue": "the truth is `true`",
    "⊤": "always",
    "≡": "equal",
    "≢": "not equal",
    "⊎": "one of two statements holds",
    "↔": "each of two statements follows from the other",
    "List": "a list; `[]` is empty, and `x ∷ xs` is `x` in front of `xs`",
    "[]": "the empty list",
    "∷": "an item in front of a list",
    "++": "two lists, one behind the other",
    "slice_get": "the item at a place, where the first one is 0, or `None`",
    "length": "how many items a list has",
    "map": "a function applied to each item",
    "filter": "the items that pass a test",
    "flat_map": "the lists that a function gives for the items, one behind the other",
    "fold": "`fold f a xs` goes from `a` on by `f` over the items",
    "reverse": "the list from its end",
    "take": "the first n items",
    "drop": "all but the first n items",
    "replicate": "n times the same item",
    "zip": "the pairs of items at the same place, as long as both lists have one",
    "get_or": "`get_or xs i d` is the item at place `i`, from 0, and `d` where there is none",
    "slice_index": "the number at a place, from 0, and 0 where there is none",
    "slice_index_or": "the item at a place, and the given one where there is none",
    "slice_set": "the list with another item at a place",
    "insert": "the list with an item more at a place",
    "sum_by": "the sum of what a function gives for the items",
    "count_by": "how many items pass a test",
    "list_any": "whether some item passes a test",
    "list_all": "whether each item passes a test",
    "position_or_len": "the place of the first item that passes a test, and the length where none does",
    "range_with_len": "`range_with_len a n`: `n` numbers from `a` on",
    "All": "a statement holds of each item",
    "AllByRecursion": "a statement holds of each item",
    "Any": "a statement holds of some item",
    "AllZip": "a relation holds of the items of two lists of one length, place by place",
    "Contains": "an item is in a list",
    "pointwise": "whether two lists of one length are equal, place by place, by a test",
    "slice_cmp": "the order of two lists by their first different items",
    "bytes_eq": "whether two lists of bytes are equal",
    "Option": "`Some x`, or `None`",
    "Some": "there is a value",
    "None": "there is no value",
    "is_some": "whether there is a value",
    "option_map": "a function applied to the value, where there is one",
    "option_map_or": "what a function gives for the value, or else what is given last",
    "IfSome": "a statement holds of the value, where there is one",
    "MatchOption": "the first statement where there is no value, the second one of the value",
    "Result": "`Ok x`, or `Err e`",
    "Ok": "it went well",
    "Err": "it failed",
    "IfOk": "a statement holds of the value, where it went well",
    "IfErr": "a statement holds of what failed, where it failed",
    "OnOk": "a statement holds, where it went well",
    "OnErr": "a statement holds, where it failed",
    "IsErrOf": "it failed with this",
    "exit_status": "the number with which a program ends",
    "Ordering": "`Less`, `Equal` or `Greater`",
    "is_lt": "whether an order is `Less`",
    "is_le": "whether an order is `Less` or `Equal`",
    "is_gt": "whether an order is `Greater`",
    "is_ge": "whether an order is `Greater` or `Equal`",
    "codes": "the bytes of a text in quotes",
    "string_bytes": "the bytes of a word of the command line",
    "AllDigits": "each byte is a digit to a base",
    "digits_value": "the number that digits to a base write",
    "w64": "the width of 64 bits",
    "cast_unsigned": "a whole number as its two's complement of a width",
    "to_be_bytes": "the bytes of a number of a width, the high byte first",
    "Appends": "`Appends old new bytes`: where a sink tells its bytes, they are the old ones and then `bytes`; else always",
    "Consumes": "`Consumes old new bytes`: where a source tells its bytes, the old are `bytes` and then the new; else always",
    "IsAtEnd": "where a source tells its bytes, none are left; else always",
    "ReadConsumes": "at `Ok`, the bytes that it put in front were consumed, and none only at the end; else nothing was",
    "WriteAppends": "at `Ok`, as many of the bytes as it says were appended; else nothing was",
    "ReadsAtMost": "at `Ok`, no more bytes were read than there is room for",
    "sha256": "the SHA-256 of bytes (FIPS 180-4)",
    "encode_lower": "bytes as hexadecimal digits in lower case",
}
