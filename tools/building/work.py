"""The build itself: each crate once those below it are there, several side by side, those with the longest way
first."""
import concurrent.futures
import os
import pathlib
import re
import resource
import shutil
import tempfile

from . import rooms
from .crates import ROOT, all_below, crates_of, measure_ways, outdated
from .processes import Ended, Group, heed_signals, no_longer_heed_signals, only_build
from .table import TOTAL, Estimate, read_table
from .telling import Told, say

GIGABYTES_EACH = 5
SECONDS_BETWEEN_SIGNS = 1
MEGABYTES_IN_GIGABYTE = 1024
LOG = ROOT / "out" / "build.log"
FAILED = 1


def processors():
    """Those that this process may use, as nproc counts them, and not all that there are."""
    return len(os.sched_getaffinity(0))


def lanes():
    """How many crates are proved at a time: as many as there are processors, and memory for."""
    gigabytes = GIGABYTES_EACH
    found = re.search(r"MemAvailable:\s+(\d+)", pathlib.Path("/proc/meminfo").read_text(encoding="ascii"))
    if found:
        gigabytes = int(found[1]) / 2**20
    return max(1, min(processors(), int(gigabytes / GIGABYTES_EACH)))


def jobs_for(is_first, many):
    """How many copies of the prover a crate gets: the one with the longest way all processors, others their share
    and one more, since copies wait for one another."""
    return max(1, processors() if is_first else processors() // many + (processors() > 2))


def megabytes_of(folder):
    """What a folder takes on the disk."""
    sizes = (path.lstat().st_blocks for path in folder.rglob("*"))
    return sum(sizes) * 512 // 2**20


class Build:
    """A build of some crates: what waits, what is being built, and where the prover's words go."""

    def __init__(self, wanted, crates, names, lock):
        self.crates, self.waiting, self.lanes = crates, set(names), lanes()
        self.estimate = Estimate(crates, self.lanes, read_table()[0])
        self.told = Told(wanted, names, self.estimate)
        self.running, self.built, self.failed = {}, set(crates) - self.waiting, None
        self.logs = pathlib.Path(tempfile.mkdtemp(prefix="sigdorf-build-"))
        self.lock = lock

    def announce(self):
        """Says what the build takes before it begins; whether there is room for it."""
        megabytes = self.estimate.megabytes(self.waiting)
        free = shutil.disk_usage(ROOT).free // 2**20
        wanted, there = (f"{it / MEGABYTES_IN_GIGABYTE:.1f} GB" for it in (megabytes, free))
        if megabytes > free:
            self.told.say(f"a build takes {wanted} of disk, and {there} are free at {ROOT}; make room, or clone to a larger disk")
            return False
        minutes = self.estimate.minutes_left(self.waiting, {})
        self.told.say(f"{len(self.waiting)} {'crate is' if len(self.waiting) == 1 else 'crates are'} to be proved and built; that takes some {minutes:.0f} minutes and {wanted} of disk")
        return True

    def build_one(self, name, jobs):
        """Proves and builds one crate, those below which are built; whether that succeeded."""
        crate, log = self.crates[name], self.log_of(name)
        if not crate.is_library():
            # `rt` has no command that builds a program without running it. So it is run for its version.
            words = ["run", "--jobs", str(jobs), "--", "--version"] if crate.is_program() else ["lib", "--jobs", str(jobs)]
            is_built = self.group.run(["rt", *words], crate.folder, log)
        else:
            try:
                is_built = self.group.run(["rt", "lib", "--jobs", str(jobs)], rooms.lay_out(crate, self.crates), log)
            finally:
                rooms.leave(crate)
        if is_built:
            crate.freshen()
        return is_built

    def log_of(self, name):
        return self.logs / f"{name}.log"

    def start_ready(self, threads):
        ready = (name for name in self.waiting if self.built.issuperset(self.crates[name].below))
        for name in sorted(ready, key=lambda name: -self.crates[name].way)[: self.lanes - len(self.running)]:
            self.waiting.remove(name)
            self.told.begin(name)
            is_first = all(self.crates[other].way < self.crates[name].way for other in self.running.values())
            jobs = jobs_for(is_first, self.lanes)
            self.running[threads.submit(self.build_one, name, jobs)] = name

    def end_one(self, future):
        name = self.running.pop(future)
        is_built = future.result()
        minutes = self.told.end(name, is_built)
        if is_built:
            self.built.add(name)
            self.note(f"{name} {minutes:.2f} {megabytes_of(self.crates[name].folder / 'out')}")
        else:
            self.failed = self.failed or name

    def note(self, line):
        with open(LOG, "a", encoding="ascii") as file:
            file.write(f"{line}\n")

    def run(self):
        """Builds all; whether that succeeded."""
        LOG.write_text("", encoding="ascii")
        self.group = Group(self.lock)
        with concurrent.futures.ThreadPoolExecutor(self.lanes) as threads:
            try:
                while self.running or self.waiting and not self.failed:
                    if not self.failed:
                        self.start_ready(threads)
                    ended, _ = concurrent.futures.wait(self.running, SECONDS_BETWEEN_SIGNS, concurrent.futures.FIRST_COMPLETED)
                    for future in ended:
                        self.end_one(future)
                    self.told.sign()
            finally:
                # Before the pool waits for its threads, which wait for what they have started.
                self.group.end()
        return self.close()

    def close(self):
        """Says how the build ended."""
        if self.failed:
            self.told.say(f"{self.failed} was not proved; what the prover said stands in {self.log_of(self.failed)}")
            return False
        used = resource.getrusage(resource.RUSAGE_CHILDREN)
        of_processors, minutes = (used.ru_utime + used.ru_stime) / 60, self.told.minutes()
        megabytes = sum(megabytes_of(crate.folder / "out") for crate in self.crates.values())
        self.note(f"{TOTAL} {minutes:.1f} {of_processors:.1f} {megabytes}")
        self.told.say(f"built in {minutes:.1f} minutes, {of_processors:.1f} of processors")
        shutil.rmtree(self.logs, ignore_errors=True)
        return True


def build(wanted, is_below_alone=False):
    """Builds a crate, or what it stands on alone; the status. Where another build is at work in this clone it is
    waited for."""
    heed_signals()
    try:
        with only_build(lambda sentence: say(wanted, sentence)) as lock:
            # They are read once the lock is held: whoever had it may have built all of it.
            all_crates = crates_of((ROOT / "crates.txt").read_text(encoding="utf-8"))
            crates = all_below(all_crates[wanted], all_crates)
            if not is_below_alone:
                crates[wanted] = all_crates[wanted]
            measure_ways(crates)
            names = outdated(crates)
            if not names:
                # A change that doesn't touch the code leaves the program as it was, and it is current all the same.
                all_crates[wanted].freshen()
                return 0
            rooms.clear()
            made = Build(wanted, crates, names, lock)
            return 0 if made.announce() and made.run() else FAILED
    except Ended as end:
        say(wanted, "the build was ended; what has been proved is kept, and the next build goes on from there")
        return end.status
    finally:
        no_longer_heed_signals()
