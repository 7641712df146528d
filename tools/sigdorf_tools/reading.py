"""What is said of how a file is to be read, and the parts of its name."""
from typing import NamedTuple

from .areas import Area, area_said
from .faults import Fault
from .surroundings import exists
from .text_tables import SEPARATORS


class Reading(NamedTuple):
    """What parts the columns, which sheet and which range of cells are meant, how letters are written, and what stands
    for a pair that isn't allowed. What isn't said is found, or there is none."""

    separator: str | None = None
    sheet: str | None = None
    area: Area | None = None
    encoding: str | None = None
    gaps: frozenset = frozenset()


def reading_of(words):
    """What the words of a command say."""
    area = None if words.range is None else area_said(words.range)
    # Of `--gap=--` argparse makes an empty list.
    gaps = frozenset(" ".join(("--" if gap == [] else gap).split()) for gap in words.gap) - {""}
    return Reading(SEPARATORS.get(words.separator), words.sheet, area, words.encoding, gaps)


def parted_from_sheet(file):
    """The file and the sheet that `book.xlsx:Costs` names, where no file is called so."""
    path, mark, sheet = file.rpartition(":")
    if not mark or not path or not sheet or exists(file) or not exists(path):
        return file, None
    return path, sheet


def sheet_said(file, sheet, before):
    """The sheet that the name of a file tells, or else an option."""
    if sheet is not None and before is not None:
        raise Fault(f"{file}: --sheet {before} is said too; leave one of them out")
    return before if sheet is None else sheet
