#!/usr/bin/env python3
"""Random calls of the package, in processes of their own, so that one which ends by a signal is told.

    fuzz.py calls COUNT [--seed N] [--library PATH]      arguments in any guise, and at fault: a call answers or raises what its page says
    fuzz.py answers COUNT [--seed N] [--library PATH]    small problems: the cost is the least of all assignments, and SciPy's where it is there
    fuzz.py floats COUNT [--seed N] [--library PATH]     the same of floats and great whole numbers, in Fractions, with prices and claims
    fuzz.py greater COUNT [--seed N] [--library PATH]    some dozens of rows and columns of these: prices, the check, and SciPy's cost

Call number K of a seed is the same each time: `calls 1 --first K` makes it again. The last line is `N passed, M failed`.
"""
import argparse
import collections
import faulthandler
import mmap
import os
import pathlib
import resource
import signal
import subprocess
import sys
import tempfile
import traceback

HERE = pathlib.Path(__file__).resolve().parent
# So many calls are one process.
BLOCK = 5_000
SECONDS = 20
# So many bytes of addresses a process may have: no argument, however absurd its shape, is a reason to take more.
MEMORY = 4 * 2**30
# After so many processes that ended by a signal no other one is started.
MOST_ENDED = 20


def main():
    words = argparse.ArgumentParser(description=__doc__, formatter_class=argparse.RawDescriptionHelpFormatter)
    words.add_argument("kind", choices=["calls", "answers", "floats", "greater"])
    words.add_argument("count", type=int)
    words.add_argument("--seed", type=int, default=1)
    words.add_argument("--first", type=int, default=0, metavar="K", help="the number of the first call")
    words.add_argument("--library", metavar="PATH", help="libsigdorf.so, in place of the one that the package finds")
    words.add_argument("--place", help=argparse.SUPPRESS)
    words = words.parse_args()
    if words.library:
        os.environ["SIGDORF_LIBRARY"] = os.path.abspath(words.library)
    if words.place:
        return make_calls(words)
    passed, failed = made_elsewhere(words)
    print(f"{passed} passed, {failed} failed")
    return 0 if passed and not failed else 1


def made_elsewhere(words):
    """Makes all calls by processes, one after another, and counts those that passed and failed. A signal is the failure of the call that it ended."""
    outcomes, failed, first = collections.Counter(), 0, words.first
    end = words.first + words.count
    while first < end and failed < MOST_ENDED:
        with tempfile.NamedTemporaryFile() as place:
            place.write(bytes(8))
            place.flush()
            command = [sys.executable, "-B", __file__, words.kind, str(min(BLOCK, end - first)), f"--seed={words.seed}", f"--first={first}", f"--place={place.name}"]
            done = subprocess.run(command, stdout=subprocess.PIPE, text=True)
            reached = int.from_bytes(pathlib.Path(place.name).read_bytes(), "little")
        for line in done.stdout.splitlines():
            name, _, number = line.rpartition(" ")
            outcomes[name] += int(number)
        if done.returncode:
            print(f"call {reached} of seed {words.seed}: the process ended with {done.returncode}", flush=True)
            failed, reached = failed + 1, reached + 1
        first = max(reached, first + 1)
    print("; ".join(f"{number} {name}" for name, number in sorted(outcomes.items())))
    faults = outcomes.pop("failed", 0)
    return outcomes.total(), failed + faults


def make_calls(words):
    """Makes a block of calls here, and writes how often each outcome came. The number of the call is in the file of `place` at any time."""
    sys.path[:0] = [str(HERE), str(HERE.parent)]
    import calls
    import floats

    faulthandler.enable()
    resource.setrlimit(resource.RLIMIT_AS, (MEMORY, resource.getrlimit(resource.RLIMIT_AS)[1]))
    make, outcomes = getattr(floats if words.kind in ("floats", "greater") else calls, words.kind), collections.Counter()
    signal.signal(signal.SIGALRM, stop)
    with open(words.place, "r+b") as file, mmap.mmap(file.fileno(), 8) as place:
        for number in range(words.first, words.first + words.count):
            place[:] = number.to_bytes(8, "little")
            signal.alarm(SECONDS)
            try:
                outcomes[make(f"{words.seed} {number}")] += 1
            except Exception:
                print(f"call {number} of seed {words.seed}:\n{traceback.format_exc()}", file=sys.stderr, flush=True)
                outcomes["failed"] += 1
            signal.alarm(0)
        place[:] = (words.first + words.count).to_bytes(8, "little")
    for name, number in outcomes.items():
        print(name, number)
    return 0


def stop(*_):
    raise TimeoutError(f"no answer in {SECONDS} s")


if __name__ == "__main__":
    sys.exit(main())
