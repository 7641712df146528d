"""The options of `plan` that the page has fields for, with the names and the help of the command line."""
import argparse
from typing import NamedTuple

from ..faults import Fault
from ..options import look_at_options
from .refusals import Refusal

READING = "form no_header columns ignore_column gap range sheet separator encoding decimals round decimal_mark".split()
WISHES = "maximise capacity capacity_column leave_free leave_free_column need need_column need_row apart_column apart_row".split()
WISHES += "undone undone_column undone_row keep change_cost seconds".split()
# The file of the plan that --keep names, which the page keeps itself; no table that is dropped has a name with a folder.
KEPT = "shown/before.json"
KEPT_HELP = "keep the plan that is shown now, as far as it pays by --change-cost"


class Field(NamedTuple):
    """An option: a `flag`, a `choice`, a `text`, or `lines` where it may be said more than once."""

    name: str
    group: str
    kind: str
    help: str
    choices: list


def fields_of(parser):
    actions = {action.dest: action for action in reversed(parser._actions)}
    return [field_of(parser, actions[name], group) for group, names in (("reading", READING), ("wishes", WISHES)) for name in names]


def field_of(parser, action, group):
    if action.dest == "keep":
        return Field("keep", group, "flag", KEPT_HELP, [])
    several = isinstance(action, argparse._AppendAction)
    kind = "flag" if action.nargs == 0 else "choice" if action.choices else "lines" if several else "text"
    return Field(action.dest, group, kind, parser._get_formatter()._expand_help(action), list(action.choices or ()))


def values_of(fields, words):
    """What the fields show for the words of a command."""
    return {field.name: value_shown(field, getattr(words, field.name)) for field in fields}


def value_shown(field, value):
    if field.kind == "flag":
        return bool(value)
    if field.kind == "lines":
        # Of `--gap=--` argparse makes an empty list.
        return "\n".join(each or "--" for each in value)
    return "" if value is None else str(value)


def words_told(parser, fields, told, before):
    """The words of a command with the values of the fields; all else is as it was before."""
    if not isinstance(told, dict) or not all(isinstance(value, str | bool) for value in told.values()):
        raise Refusal(400, "the options have to be texts by their names; load the page anew")
    words = parser.parse_args([word for field in fields for word in words_of_field(field, told.get(field.name), before)])
    known = {field.name for field in fields}
    for name, value in vars(before).items():
        if name not in known:
            setattr(words, name, value)
    if words.keep is not None and words.change_cost is None:
        raise Fault("--keep: --change-cost says what each change costs, and isn't said; say it too")
    look_at_options(words)
    return words


def words_of_field(field, value, before):
    option = f"--{field.name.replace('_', '-')}"
    if field.name == "keep":
        return [f"{option}={before.keep or KEPT}"] if value is True else []
    if field.kind == "flag":
        return [option] if value is True else []
    texts = str(value or "").splitlines() if field.kind == "lines" else [str(value or "").strip()]
    return [f"{option}={text}" for text in texts if text]
