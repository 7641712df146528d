"""What each crate took in a first build that was measured, and by that what is left of this one.

tools/building/first_build.txt is the one place that holds these figures. A line is a crate with its minutes and the
megabytes that it leaves; the line `total` has the minutes of the wall, those of processors, and the megabytes of the
whole. tools/build --table LOG writes it from a log.
"""
import heapq
import pathlib
from typing import NamedTuple

FILE = pathlib.Path(__file__).resolve().parent / "first_build.txt"
TOTAL = "total"
# So many minutes of the table count beside what the first crates took here, so that one that was built before doesn't decide.
MINUTES_BESIDE = 3.0
# Of a crate that the table doesn't have, until it is measured.
UNKNOWN_MINUTES, UNKNOWN_MEGABYTES = 2.0, 200


class Cost(NamedTuple):
    minutes: float
    megabytes: int


class Total(NamedTuple):
    minutes: float
    of_processors: float
    megabytes: int


def read_table(file=FILE):
    """The costs by crate, and the total."""
    lines = [line.split() for line in file.read_text(encoding="ascii").splitlines() if line and not line.startswith("#")]
    costs = {words[0]: Cost(float(words[1]), int(words[2])) for words in lines if words[0] != TOTAL}
    total = next(Total(float(words[1]), float(words[2]), int(words[3])) for words in lines if words[0] == TOTAL)
    return costs, total


def table_of(log):
    """The table's lines for the log of a whole build."""
    lines = [line for line in pathlib.Path(log).read_text(encoding="ascii").splitlines() if line]
    head = [line for line in FILE.read_text(encoding="ascii").splitlines() if line.startswith("#")]
    return "".join(f"{line}\n" for line in [*head, *lines])


class Estimate:
    """How long the crates take that remain, by the table and by what the first ones took here."""

    def __init__(self, crates, lanes, costs):
        self.crates, self.lanes = crates, lanes
        self.costs = {name: costs.get(name, Cost(UNKNOWN_MINUTES, UNKNOWN_MEGABYTES)) for name in crates}
        self.took, self.wanted = 0.0, 0.0

    def note(self, name, minutes):
        self.took += minutes
        self.wanted += self.costs[name].minutes

    def pace(self):
        """How many times the table's minutes a crate takes here."""
        return (self.took + MINUTES_BESIDE) / (self.wanted + MINUTES_BESIDE)

    def megabytes(self, names):
        """What these crates leave on the disk, but for those that have been built before."""
        return sum(self.costs[name].megabytes for name in names if not (self.crates[name].folder / "out").exists())

    def minutes_left(self, waiting, running):
        """When the last crate ends, if each begins once those below it have, those with the longest way first;
        running says since when some are proved."""
        pace = self.pace()
        ends = [(max(0.0, self.costs[name].minutes * pace - minutes), name) for name, minutes in running.items()]
        heapq.heapify(ends)
        waiting, undone, now = set(waiting), set(waiting) | set(running), 0.0
        while waiting or ends:
            ready = sorted((it for it in waiting if not undone & set(self.crates[it].below)), key=lambda it: -self.crates[it].way)
            for name in ready[: self.lanes - len(ends)]:
                waiting.remove(name)
                heapq.heappush(ends, (now + self.costs[name].minutes * pace, name))
            now, ended = heapq.heappop(ends)
            undone.remove(ended)
        return now
