#!/usr/bin/python3
"""Prints the manual page of wdq-mirror, or what bash completes, from the words of its commands.

    manual.py man DATE | manual.py bash
"""

import argparse
import dataclasses
import pathlib
import re
import sys
import typing

sys.path.insert(0, str(pathlib.Path(__file__).resolve().parent))
sys.dont_write_bytecode = True

import wdq_mirror  # noqa: E402
from wdq_mirror import cli, errors, settings  # noqa: E402

FILES = """The settings
mirror.toml
What was made so far: eras, gaps, the place in the stream
state.db
Of era N the lines that wdq got, the records that it made, and its state at the end
events/N.jsonl, records/N.txt, snapshots/N
The embedded store
store.db"""
COMPLETION = """# What bash completes behind wdq-mirror.
_wdq_mirror() {
  local word=${COMP_WORDS[COMP_CWORD]} command='' one words
  for one in "${COMP_WORDS[@]:1:COMP_CWORD-1}"; do
    case $one in
      %(commands)s) command=$one && break ;;
    esac
  done
  case $command in
    '') words='%(all)s %(common)s' ;;
%(cases)s
  esac
  mapfile -t COMPREPLY < <(compgen -W "$words" -- "$word")
}
complete -o bashdefault -o default -F _wdq_mirror wdq-mirror"""


def commands_of(parser: argparse.ArgumentParser) -> dict[str, argparse.ArgumentParser]:
    """The parsers of the commands."""
    found = next(action for action in parser._actions if isinstance(action, argparse._SubParsersAction))
    return dict(found.choices)


def roff(text: str) -> str:
    """A text as troff reads it."""
    text = " ".join(text.split()).replace("\\", "\\e").replace("-", "\\-")
    return "\\&" + text if text[:1] in (".", "'") else text


def options_of(parser: argparse.ArgumentParser) -> list[str]:
    """The options of a command, as they are spelled in full."""
    return [action.option_strings[-1] for action in parser._actions if action.option_strings]


def word_of(action: argparse.Action) -> str:
    """A word of a command, with what it takes."""
    value = action.metavar or ("{" + ",".join(map(str, action.choices)) + "}" if action.choices else "")
    if not action.option_strings:
        return f".I {roff(str(value))}"
    takes = f" \\fI{roff(str(value))}\\fR" if action.nargs != 0 else ""
    return f".BR {roff(action.option_strings[-1])} \"{takes}\""


def entries(parser: argparse.ArgumentParser) -> typing.Iterator[str]:
    """What a command takes."""
    for action in parser._actions:
        if action.dest not in ("help", "command") and action.help:
            yield from (".TP", word_of(action), roff(action.help % {"default": action.default}) + ".")


def manual(date: str) -> typing.Iterator[str]:
    """The lines of the page."""
    parser = cli.make_parser()
    yield f'.TH WDQ\\-MIRROR 1 {date} "wdq {wdq_mirror.__version__}" "User Commands"'
    yield from (".SH NAME", "wdq\\-mirror \\- keep a mirror of Wikidata's triples in step with Wikidata", ".SH SYNOPSIS")
    yield from (".B wdq\\-mirror", ".RB [ \\-\\-home", ".IR FOLDER ]", ".I COMMAND", ".RI [ ARGUMENTS ]", ".SH DESCRIPTION")
    about, _, begin = (parser.description or "").partition("\nTo begin")
    first, *steps = [part for part in re.split("\n\n", begin) if part.strip()]
    yield from (roff(about), ".PP", roff("To begin" + first))
    for step in steps:
        yield from (".PP", ".nf", *map(roff, step.strip("\n").splitlines()), ".fi") if step.startswith("    ") else (".PP", roff(step))
    yield from (".SH OPTIONS", *entries(parser), ".SH COMMANDS")
    for name, command in commands_of(parser).items():
        yield from (".SS " + name, roff(command.description or ""), *entries(command))
    yield ".SH SETTINGS"
    for part in dataclasses.fields(settings.Settings):
        yield f".SS [{part.name}]"
        for field in dataclasses.fields(typing.cast(typing.Any, part.default_factory)):
            yield from (".TP", f".BR {field.name} \" = {roff(repr(field.default))}\"", roff(field.metadata["about"]) + ".")
    yield ".SH FILES"
    texts = FILES.splitlines()
    for text, name in zip(texts[::2], texts[1::2]):
        yield from (".TP", f".I {roff(name)}", roff(text) + ".")
    yield ".SH EXIT STATUS"
    for status, meaning in errors.STATUSES.items():
        yield from (".TP", f".B {status}", roff(meaning) + ".")
    yield from (".SH SEE ALSO", ".BR wdq (1)")


def completion() -> str:
    """The script of bash."""
    parser = cli.make_parser()
    commands = commands_of(parser)
    cases = [f"    {name}) words='{' '.join(options_of(command))}' ;;" for name, command in commands.items()]
    words = {"commands": " | ".join(commands), "all": " ".join(commands), "common": " ".join(options_of(parser)), "cases": "\n".join(cases)}
    return COMPLETION % words


def main() -> int:
    """Prints one of the two."""
    if sys.argv[1:] == ["bash"]:
        print(completion())
    elif len(sys.argv) == 3 and sys.argv[1] == "man":
        print("\n".join(manual(sys.argv[2])))
    else:
        print(__doc__, file=sys.stderr)
        return 2
    return 0


if __name__ == "__main__":
    sys.exit(main())
