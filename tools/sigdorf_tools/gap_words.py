"""Words where a cost is wanted, as `x` or `n/a`: what a planner can do about one."""
import shlex

from .faults import SHOWN


def is_word(cell):
    """Whether a cell may stand for a pair that isn't allowed: it has no digit, or is an error of a spreadsheet, as `#DIV/0!`."""
    return cell.startswith("#") or 0 < len(cell) <= SHOWN and not any(map(str.isdigit, cell))


def way_out(cell, otherwise):
    """The end of a sentence on a cell that is no cost."""
    return f"say {gap_said(cell)} if it stands for a pair that isn't allowed, or write a cost" if is_word(cell) else otherwise


def gap_said(cell):
    """The option that names a word, as a shell takes it."""
    return f"--gap{'=' if cell.startswith('-') and len(cell) > 1 else ' '}{shlex.quote(cell)}"
