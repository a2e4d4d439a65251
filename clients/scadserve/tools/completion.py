"""Completion of the tools' words in bash and zsh, from the parsers that --help is made of.

    python3 -m scadserve.completion DIR    # DIR/bash/scad2off, DIR/zsh/_scad2off and so on
"""

from __future__ import annotations

import argparse
import sys
from pathlib import Path
from typing import Iterable, Sequence

from .catalogue import STARTER, TOOLS, parser_of
from .manual import help_of, value_of

# The ending of the files that a tool reads, by the first part of its name.
_ENDINGS = {"scad": ".scad", "off": ".4off", "csg": ".csg", "scadlive": ".scad"}
_BASH = """# Completes the words of {name} in bash.
_{name}() {{
    local word=${{COMP_WORDS[COMP_CWORD]}} before=${{COMP_WORDS[COMP_CWORD - 1]}}
    if [[ $word == = ]]; then
        word=
    elif [[ $before == = ]]; then
        before=${{COMP_WORDS[COMP_CWORD - 2]}}
    fi
    case $before in
{values}    esac
    case $word in
    -*) mapfile -t COMPREPLY < <(compgen -W '{options}' -- "$word") ;;
    *) mapfile -t COMPREPLY < <({files}) ;;
    esac
}}
complete -o filenames -F _{name} {name}
"""


def bash(name: str) -> str:
    """The functions that complete a tool's words in bash."""
    options, files = _words_of(name)
    values = ""
    for action in options:
        if value_of(action):
            names = "|".join(action.option_strings)
            values += f"    {names}) mapfile -t COMPREPLY < <({_generated(action, name)}); return ;;\n"
    found = " ".join(option for it in options for option in it.option_strings)
    if all(it.choices for it in files):
        choices = f"compgen -W '{_choices(files)}' -- \"$word\""
    else:
        choices = _generated(files[0], name)
    return _BASH.format(name=name, values=values, options=found, files=choices)


def _generated(action: argparse.Action, name: str) -> str:
    """The command that prints what a word of this action can be."""
    kind = value_of(action)
    if action.choices:
        return f"compgen -W '{_choices([action])}' -- \"$word\""
    if kind == "DIR":
        return 'compgen -d -- "$word"'
    if kind == "OUT":
        return 'compgen -f -- "$word"'
    if kind == "FILE":
        return f"compgen -f -X '!*{_ending(name)}' -- \"$word\"; compgen -d -- \"$word\""
    return ":"


def zsh(name: str) -> str:
    """The function that completes a tool's words in zsh."""
    options, files = _words_of(name)
    specs = [it for action in options for it in _of_option(parser_of(name), action, name)]
    if files and all(it.choices for it in files):
        specs.append(f"1:word:({_choices(files)})")
    else:
        for it in files:
            count = "*" if it.nargs in ("*", "+") else ":" if it.nargs == "?" else ""
            specs.append(f"{count}:{value_of(it)}:{_wanted(it, name)}")
    quoted = " \\\n    ".join("'" + it.replace("'", "'\\''") + "'" for it in specs)
    return f"#compdef {name}\n# Completes the words of {name} in zsh.\n_arguments \\\n    {quoted}\n"


def _of_option(parser: argparse.ArgumentParser, action: argparse.Action, name: str) -> Iterable[str]:
    """How zsh is told about each name of an option: those of one option exclude one another, unless it may come again."""
    said = "".join("\\" + it if it in "[]:\\" else it for it in help_of(parser, action))
    values = action.metavar if isinstance(action.metavar, tuple) else [value_of(action)]
    value = "".join(f":{it}:{_wanted(action, name)}" for it in values if it)
    is_again = isinstance(action.default, list)
    for option in action.option_strings:
        before = "*" if is_again else "(" + " ".join(action.option_strings) + ")"
        joined = ("=" if option.startswith("--") else "+") * bool(value)
        yield f"{before}{option}{joined}[{said}]{value}"


def _wanted(action: argparse.Action, name: str) -> str:
    """What zsh completes a value by."""
    kind = value_of(action)
    if action.choices:
        return f"({_choices([action])})"
    kinds = {"DIR": "_files -/", "OUT": "_files", "FILE": f'_files -g "*{_ending(name)}"'}
    return kinds.get(kind, " ")


def _words_of(name: str) -> tuple[list[argparse.Action], list[argparse.Action]]:
    """The options of a tool, and its files."""
    # (argparse has no public list of what was added to a parser)
    actions = parser_of(name)._actions
    return [it for it in actions if it.option_strings], [it for it in actions if not it.option_strings]


def _choices(actions: Iterable[argparse.Action]) -> str:
    return " ".join(str(choice) for it in actions for choice in it.choices or ())


def _ending(name: str) -> str:
    return _ENDINGS.get(name.partition("2")[0], "")


def main(words: Sequence[str]) -> int:
    """Writes all to the folder that is named."""
    for name in (STARTER, *TOOLS):
        for shell, file, text in (("bash", name, bash(name)), ("zsh", f"_{name}", zsh(name))):
            folder = Path(words[0], shell)
            folder.mkdir(parents=True, exist_ok=True)
            (folder / file).write_text(text, "utf-8")
    return 0


if __name__ == "__main__":
    sys.exit(main(sys.argv[1:]))
