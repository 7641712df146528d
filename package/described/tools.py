"""The planners' tools, each with its options as its own parser knows them."""
import argparse
import importlib.machinery
import importlib.util
import pathlib
import sys
from typing import NamedTuple
from unittest import mock

ROOT = pathlib.Path(__file__).resolve().parents[2]
FILES = {
    "auction-plan": "plan",
    "auction-from-csv": "tools/from_csv",
    "auction-to-csv": "tools/to_csv",
    "auction-picture": "tools/picture",
    "auction-margins": "tools/margins",
    "auction-check-certificate": "tools/check_certificate.py",
}
# What stands for a value that is the name of a file.
NAMES_OF_FILES = {"FILE", "PATH", "ARCS", "CERTIFICATE", "NAMES", "TABLE"}


class Option(NamedTuple):
    """An option, or a file that stands without one; that has no names."""

    names: tuple
    value: str | None
    choices: tuple
    help: str
    # Those that can't stand beside it, itself among them; none where it may stand more than once.
    excludes: tuple
    is_left_out: bool

    def takes_file(self):
        return self.value is not None and not NAMES_OF_FILES.isdisjoint(self.value.split("|"))

    def long_names(self):
        return [name for name in self.names if name.startswith("--")]

    def in_short(self):
        """The help up to its first semicolon, for a line of a shell."""
        return self.help.partition(";")[0].replace("`", "")


class Tool(NamedTuple):
    command: str
    description: str
    files: list
    # The title of each group, and its options.
    groups: list

    def options(self):
        return [option for _, options in self.groups for option in options]

    def in_short(self):
        """The description up to its first colon or full stop."""
        return self.description.partition(". ")[0].partition(":")[0].strip().rstrip(".")


class Caught(BaseException):
    """The parser of a tool, at the moment when the tool would read its options by it."""

    def __init__(self, parser):
        self.parser = parser


def parser_of(command, file):
    """The parser that a tool makes when it is called by its installed name."""

    def catch(parser, *_, **__):
        raise Caught(parser)

    loader = importlib.machinery.SourceFileLoader(command.replace("-", "_"), str(ROOT / file))
    module = importlib.util.module_from_spec(importlib.util.spec_from_loader(loader.name, loader))
    caught = {name: catch for name in ("parse_args", "parse_intermixed_args")}
    with mock.patch.object(sys, "argv", [command]), mock.patch.multiple(argparse.ArgumentParser, **caught):
        try:
            loader.exec_module(module)
            module.main()
        except Caught as found:
            return found.parser
    raise SystemExit(f"package/describe: {file} reads no options by argparse")


def option_of(parser, action):
    together = [group._group_actions for group in parser._mutually_exclusive_groups if action in group._group_actions]
    others = [name for other in (together[0] if together else [action]) for name in other.option_strings]
    repeats = isinstance(action, argparse._AppendAction)
    return Option(
        names=tuple(action.option_strings),
        value=None if action.nargs == 0 else action.metavar or action.dest.upper(),
        choices=tuple(map(str, action.choices or ())),
        help=parser._get_formatter()._expand_help(action) if action.help else "",
        excludes=() if repeats else tuple(others),
        is_left_out=action.nargs in ("?", "*"),
    )


def tool_of(command, file):
    parser = parser_of(command, file)
    files, groups = [], []
    for group in parser._action_groups:
        shown = [option_of(parser, action) for action in group._group_actions if action.help != argparse.SUPPRESS]
        files += [option for option in shown if not option.names]
        options = [option for option in shown if option.names]
        groups += [(group.title, options)] if options else []
    return Tool(command, parser.description, files, groups)


def tools():
    return [tool_of(command, file) for command, file in FILES.items()]
