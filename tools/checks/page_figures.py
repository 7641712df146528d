"""Figures that stand in one place and are told on pages: what the first build takes, by
tools/building/first_build.txt."""
import pathlib
import re
import sys

ROOT = pathlib.Path(__file__).resolve().parents[2]
sys.path.insert(0, str(ROOT / "tools"))
from building.table import read_table  # noqa: E402

# What tells of the past, and what isn't about this build.
PAST = ("CHANGELOG.md", "docs/notes/", "bench/")
ABOUT = re.compile(r"first build|proves and builds|first one takes|builds the (?:program|solver|library)", re.IGNORECASE)
# A time of a minute and more, or what it takes on a disk; seconds and gigabytes of memory are other figures.
FIGURE = re.compile(r"[\d.,]+ (?:processor )?(?:minutes|hours)|(?:an|half an|quarters of an) hour|[\d.,]+ GB of disk")


def told():
    """The figures that pages may tell, as they tell them."""
    _, total = read_table()
    return {f"{total.minutes:.0f} minutes", f"{total.of_processors:.0f} processor minutes", f"{total.megabytes / 1024:.1f} GB of disk"}


def sentences(lines):
    """The sentences of numbered lines, each with the number of its first line. A line of a table or of code is one
    by itself."""
    start, words = None, []
    for number, line in [*lines, (None, "")]:
        alone = line.startswith(("|", "    "))
        if words and (alone or not line.strip()):
            yield start, " ".join(words)
            words = []
        if alone:
            yield number, line
            continue
        for part in re.split(r"(?<=[.!?])\s+", line.strip()):
            if not words:
                start = number
            words.append(part)
            if part.endswith((".", "!", "?")):
                yield start, " ".join(words)
                words = []


def faults_of_figures(name, lines):
    """Figures of the first build that differ from those that were measured."""
    if name.startswith(PAST):
        return []
    right = told()
    found = [(number, figure) for number, text in sentences(lines) if ABOUT.search(text) for figure in FIGURE.findall(text)]
    return [f"{name}, line {number}: the first build takes {', '.join(sorted(right))}, and not {figure}" for number, figure in found if figure not in right]
