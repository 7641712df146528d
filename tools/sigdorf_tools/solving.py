"""Solves problems by the program `auction`, and has its answers judged: by its proved checker always, and by the second checker where that takes no long time."""
import copy
import signal
import subprocess
import sys
import tempfile
from typing import NamedTuple

from .claims import Claim, claim_of, read_arcs, read_claim
from .faults import Fault

# Statuses of a solve that come with a certificate.
ANSWERED = (0, 3, 4)
# What ends a process from outside, and the statuses of a build that was ended so.
SIGNALS = (signal.SIGINT, signal.SIGTERM, signal.SIGHUP)
ENDED = tuple(128 + number for number in SIGNALS)
# Up to so many arcs the second checker judges unasked: it takes some seconds for them.
MOST_FOR_SECOND = 200_000
PROVED, SECOND = "the proved checker", "the second checker"


class Answer(NamedTuple):
    """A claim that was judged, the certificate that has it, the status of the solve, and who judged it; and how many
    answers the claim is put together from, where it isn't one."""

    claim: Claim
    certificate: bytes
    status: int
    judges: list
    parts: int = 1


class Solver:
    """The program, the limits of its search, and whether the second checker is asked whatever the size. It solves by --direct, unless threads are asked for."""

    def __init__(self, program, bids=None, workers=None, has_second=False, seconds=None):
        self.program, self.has_second = program, has_second
        self.bids, self.workers, self.seconds = bids, workers, seconds
        self.is_ready = False

    def within(self, seconds):
        """The same with another limit of time."""
        other = copy.copy(self)
        other.seconds = seconds
        return other

    def limits(self):
        """What the program is told of its search."""
        said = [f"--{name}={value}" for name, value in (("bids", self.bids), ("workers", self.workers), ("seconds", self.seconds)) if value is not None]
        return [*said, *([] if self.workers is not None else ["--direct"])]

    def make_ready(self):
        """Runs the program once by itself: `auction` of a clone is built by that, before two of it work side by side."""
        if self.is_ready:
            return
        status = self.passing_signals_on(["--version"])
        if status in ENDED:
            raise SystemExit(status)
        if status != 0:
            raise Fault(f"{self.program}: it doesn't run, or couldn't be built (status {status}); name a built program by --program")
        self.is_ready = True

    def passing_signals_on(self, words):
        """The status of the program. What ends this process meanwhile ends the program first."""
        running = self.started(words, subprocess.DEVNULL, None)
        before = {number: signal.signal(number, lambda number, _: running.send_signal(number)) for number in SIGNALS}
        try:
            return running.wait()
        finally:
            for number, handler in before.items():
                signal.signal(number, handler)

    def answer(self, name, pieces, count, objects, start=None):
        """The answer for the text of an arc file, which comes in pieces and has so many arcs and objects. Its name is for faults. A search may start from an old certificate, where objects are as
        many as persons."""
        self.make_ready()
        with tempfile.NamedTemporaryFile("w", suffix=".arcs", encoding="ascii") as file, tempfile.NamedTemporaryFile("wb", suffix=".certificate") as old:
            file.writelines(pieces)
            file.flush()
            old.write(start or b"")
            old.flush()
            more = [f"--objects={objects}"] if objects else []
            # The checker reads the problem while it is solved, and waits for the answer.
            with self.started(["check", file.name, *more]) as checker:
                try:
                    certificate, status = self.solved(name, file.name, [*self.limits(), *more, *([f"--from={old.name}"] if start else [])])
                except BaseException:
                    checker.kill()
                    raise
                verdict = checker.communicate(certificate)[0].decode("latin-1").strip()
            if not verdict.startswith("valid"):
                raise Fault(f"{name}: the answer of {self.program} doesn't hold, as its checker says ({verdict or 'status ' + str(checker.returncode)}); install the program anew")
            claim, judges = claim_of(certificate), [PROVED]
            if self.has_second or count <= MOST_FOR_SECOND:
                with open(file.name, "rb") as problem:
                    arcs = read_arcs(name, problem.read(), objects)
                claim = read_claim("the answer of the solver", certificate, arcs, objects or len(arcs), name)
                judges.append(SECOND)
        return Answer(claim, certificate, status, judges)

    def has_full(self, pieces, objects):
        """Whether the problem has an assignment, by a search that asks no costs. It is judged by what comes of it."""
        self.make_ready()
        with tempfile.NamedTemporaryFile("w", suffix=".arcs", encoding="ascii") as file:
            file.writelines(pieces)
            file.flush()
            with self.started(["hall", file.name, *([f"--objects={objects}"] if objects else [])]) as running:
                running.communicate()
        return running.returncode == 0

    def started(self, words, pipe=subprocess.PIPE, said=subprocess.PIPE):
        try:
            return subprocess.Popen([self.program, *words], stdin=pipe, stdout=pipe, stderr=said)
        except OSError as error:
            raise Fault(f"{self.program}: it can't be run: {error.strerror}; name a built program by --program") from None

    def solved(self, name, file, words):
        """The certificate and the status of a solve. What the program says of the file, which is none of the planner's, is left out: the plan says it by names."""
        with self.started(["solve", file, *words]) as running:
            certificate, said = running.communicate()
        for line in said.splitlines(keepends=True):
            if not line.startswith(f"auction: {file}".encode()):
                sys.stderr.write(line.decode("utf-8", "replace"))
        if running.returncode not in ANSWERED:
            told = certificate.decode("latin-1").strip() or "its own words are above"
            raise Fault(f"{name}: the solver gave no answer, but status {running.returncode} ({told})")
        return certificate, running.returncode
