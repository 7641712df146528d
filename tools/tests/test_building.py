"""tools/build, and what begins with it: one build at a time in a clone, an end of all that it has started, and a next
one that goes on.

The clone is a small one, and a stand-in for `rt` on the path proves nothing: it takes its time, with a prover of its
own, and leaves what `rt` leaves.
"""
import os
import pathlib
import shutil
import signal
import stat
import subprocess
import sys
import time
from unittest import mock

from calls import ROOT, ToolTest

CRATES = "low: thiserror\nleft: low\nright: low\nauction: left right clap\nsigdorf_c staticlib: left\n"
LIBRARIES = ["left", "low", "right"]
# Of the stand-in: how long it proves, and how long a test waits for what has to come.
PROVES, PATIENCE = 0.3, 30.0

RT = """#!/bin/sh
# Proves nothing. FOLDER/said has a line for each crate that is begun, FOLDER/provers the processes; FOLDER/fails names
# a crate that fails.
crate=$(basename "$PWD")
[ "$1" != doc ] || { echo /nowhere/START; exit; }
echo "$crate" >>"$RT_FOLDER/said"
sleep "$(cat "$RT_FOLDER/seconds")" &
echo "$!" >>"$RT_FOLDER/provers"
echo "$$" >>"$RT_FOLDER/provers"
wait
[ "$(cat "$RT_FOLDER/fails" 2>/dev/null)" != "$crate" ] || { echo "no proof of $crate"; exit 1; }
mkdir -p out/rlib
case $crate in
auction) cp "$RT_FOLDER/program" out/auction ;;
sigdorf_c) echo archive >out/libsigdorf_c.a ;;
*) echo stamp >out/rlib/stamp ;;
esac
"""

PROGRAM = """#!/bin/sh
# The answers for examples/crew.arcs, as the program gives them.
case $1 in
--version) echo auction 0 ;;
solve) cat "$RT_FOLDER/certificate" ;;
check) cat >/dev/null; echo valid optimal 145 ;;
esac
"""


def is_alive(process):
    """Whether a process is there and no corpse that nobody has asked for yet."""
    try:
        return pathlib.Path(f"/proc/{process}/stat").read_text().rpartition(")")[2].split()[0] not in "ZX"
    except OSError:
        return False


class Building(ToolTest):
    def setUp(self):
        super().setUp()
        self.clone = self.folder / "clone"
        for name in ("low", "left", "right", "auction", "sigdorf_c"):
            (self.clone / "crates" / name / "src").mkdir(parents=True)
            (self.clone / "crates" / name / "src" / ("main.rt" if name == "auction" else "lib.rt")).write_text("// nothing\n")
        (self.clone / "crates.txt").write_text(CRATES)
        for name in ("auction", "plan", "VERSION", "examples", "tools", "c"):
            copy = shutil.copytree if (ROOT / name).is_dir() else shutil.copy2
            copy(ROOT / name, self.clone / name)
        self.executable("rt", RT)
        self.executable("program", PROGRAM)
        shutil.copy(ROOT / "examples" / "crew.certificate", self.folder / "certificate")
        self.write("seconds", f"{PROVES}")
        self.addCleanup(self.end_provers)

    def executable(self, name, text):
        path = self.write(name, text)
        path.chmod(path.stat().st_mode | stat.S_IXUSR)

    def lines(self, name):
        path = self.folder / name
        return path.read_text().split() if path.exists() else []

    def end_provers(self):
        for process in self.lines("provers"):
            if is_alive(process):
                os.kill(int(process), signal.SIGKILL)

    def begin(self, *words):
        """Starts a command of the clone, in a group of its own as a shell does."""
        environment = os.environ | {"PATH": f"{self.folder}:{os.environ['PATH']}", "RT_FOLDER": str(self.folder)}
        environment.pop("AUCTION", None)
        how = {"stdin": subprocess.DEVNULL, "stdout": subprocess.PIPE, "stderr": subprocess.PIPE, "text": True}
        return subprocess.Popen([self.clone / words[0], *words[1:]], cwd=self.folder, env=environment, process_group=0, **how)

    def ended(self, running):
        output, said = running.communicate(timeout=PATIENCE)
        return running.returncode, output, said

    def run_once(self, *words):
        return self.ended(self.begin(*words))

    def wait_for(self, is_so):
        end = time.monotonic() + PATIENCE
        while not is_so():
            self.assertLess(time.monotonic(), end, "it never came")
            time.sleep(0.02)

    def assert_no_prover(self):
        self.wait_for(lambda: not any(map(is_alive, self.lines("provers"))))

    def test_first_plan_of_a_fresh_clone(self):
        status, output, said = self.run_once("plan", "clone/examples/crew.csv")
        self.assertEqual((status, output.splitlines()[-1]), (0, "total,,145"), said)
        self.assertEqual(sorted(self.lines("said")), sorted([*LIBRARIES, "auction"]), "each crate once")
        self.assertIn("minutes so far", said)
        self.assertEqual(self.run_once("plan", "clone/examples/crew.csv")[0], 0)
        self.assertEqual(len(self.lines("said")), 4, "nothing is built a second time")

    def test_two_commands_at_once(self):
        first, second = self.begin("auction", "--version"), self.begin("plan", "clone/examples/crew.csv")
        answers = [self.ended(first), self.ended(second)]
        self.assertEqual([status for status, _, _ in answers], [0, 0], answers)
        self.assertEqual(sorted(self.lines("said")), sorted([*LIBRARIES, "auction"]), "each crate once")
        self.assertEqual(sum("waits for its end" in said for _, _, said in answers), 1, "who comes second says so")

    def test_library_for_c(self):
        self.run_once("auction", "--version")
        # The stand-in's archive is none, so that what c/build does with it fails.
        _, _, said = self.run_once("c/build")
        self.assertEqual(self.lines("said")[-1], "sigdorf_c", said)
        self.assertEqual(len(self.lines("said")), 5, "only what was left")
        self.assertIn("sigdorf_c: 1 crate is to be proved and built", said)
        self.assertIn("minutes so far", said)

    def test_what_is_ended_leaves_no_process(self):
        # A plan and the program, each by what a terminal sends to the whole group, and by what ends one process.
        cases = [("auction", signal.SIGINT, os.killpg), ("auction", signal.SIGTERM, os.kill), ("auction", signal.SIGHUP, os.killpg)]
        cases += [("plan", signal.SIGINT, os.killpg), ("plan", signal.SIGTERM, os.kill)]
        self.write("seconds", "60")
        for name, number, send in cases:
            with self.subTest(f"{name} and {number.name}"):
                begun = len(self.lines("provers"))
                running = self.begin(*([name, "clone/examples/crew.csv"] if name == "plan" else [name, "--version"]))
                self.wait_for(lambda: len(self.lines("provers")) >= begun + 2)
                send(running.pid, number)
                status, output, said = self.ended(running)
                self.assertEqual((status, output), (128 + number, ""), said)
                self.assertNotIn("Traceback", said)
                self.assert_no_prover()

    def test_what_is_killed_leaves_no_process(self):
        self.write("seconds", "60")
        running = self.begin("auction", "--version")
        self.wait_for(lambda: len(self.lines("provers")) >= 2)
        running.kill()
        self.ended(running)
        self.assert_no_prover()

    def test_goes_on_after_an_end(self):
        self.run_once("tools/build", "left")
        self.assertEqual(self.lines("said"), ["low", "left"])
        self.write("seconds", "60")
        running = self.begin("auction", "--version")
        self.wait_for(lambda: "right" in self.lines("said"))
        os.killpg(running.pid, signal.SIGINT)
        self.assertEqual(self.ended(running)[0], 130)
        self.write("seconds", "0")
        self.assertEqual(self.run_once("auction", "--version")[:2], (0, "auction 0\n"))
        self.assertEqual(self.lines("said"), ["low", "left", "right", "right", "auction"])

    def test_a_library_fails(self):
        self.write("fails", "right")
        status, output, said = self.run_once("auction", "--version")
        self.assertEqual((status, output), (1, ""), said)
        self.assertIn("right was not proved", said)
        log = pathlib.Path(said.split()[-1])
        self.assertEqual(log.read_text(), "no proof of right\n")
        shutil.rmtree(log.parent)
        status, _, said = self.run_once("plan", "clone/examples/crew.csv")
        self.assertEqual(status, 2)
        self.assertIn("right was not proved", said)
        self.write("fails", "")
        self.assertEqual(self.run_once("plan", "clone/examples/crew.csv")[0], 0, "a second try")
        self.assertEqual(self.lines("said").count("low"), 1, "what was proved is kept")

    def test_a_changed_source_is_built_again(self):
        self.run_once("auction", "--version")
        source = self.clone / "crates/left/src/lib.rt"
        os.utime(source, (time.time() + 1, time.time() + 1))
        time.sleep(1.1)
        self.assertEqual(self.run_once("auction", "--version")[0], 0)
        self.assertEqual(sorted(self.lines("said")[4:]), ["auction", "left"])

    def test_what_another_build_has_changed_is_built_upon(self):
        self.run_once("auction", "--version")
        source = self.clone / "crates/left/src/lib.rt"
        os.utime(source, (time.time() + 1, time.time() + 1))
        time.sleep(1.1)
        self.run_once("tools/build", "left")
        self.assertEqual(self.run_once("auction", "--version")[0], 0)
        self.assertEqual(self.lines("said")[4:], ["left", "auction"], "the program was of the library before")

    def test_words(self):
        self.assertEqual(self.run_once("tools/build", "nosuch")[0], 2)
        self.assertIn("crates.txt has no crate nosuch", self.run_once("tools/build", "nosuch")[2])


class Telling(ToolTest):
    """What a build says, by the parts of it."""

    def setUp(self):
        super().setUp()
        from building import crates, table, work

        self.crates, self.table, self.work = crates, table, work

    def estimate(self, lanes, costs):
        crates = self.crates.crates_of("a:\nb: a\nc: a\nd: b c\n")
        for way, name in enumerate("dcba"):
            crates[name].way = way
        return self.table.Estimate(crates, lanes, {name: self.table.Cost(minutes, 100) for name, minutes in costs.items()})

    def test_estimate(self):
        costs = {"a": 2.0, "b": 3.0, "c": 4.0, "d": 1.0}
        self.assertEqual(self.estimate(2, costs).minutes_left("abcd", {}), 7.0, "b beside c")
        self.assertEqual(self.estimate(1, costs).minutes_left("abcd", {}), 10.0, "one after the other")
        begun = self.estimate(2, costs)
        begun.note("a", 7.0)
        self.assertEqual(begun.minutes_left("bcd", {}), 10.0, "twice as long here, by these 7 minutes and 3 of the table's")
        self.assertEqual(begun.minutes_left("d", {"b": 1.0, "c": 1.0}), 9.0)
        again = self.estimate(2, costs)
        again.note("a", 0.0)
        self.assertEqual(again.minutes_left("bcd", {}), 3.0, "one that was built before doesn't say that all were")
        self.assertEqual(self.estimate(2, costs).minutes_left("", {"d": 5.0}), 0.0, "longer than in the table")

    def test_too_little_disk(self):
        crates = self.crates.crates_of("a:\n")
        said = []
        with mock.patch.object(self.work.shutil, "disk_usage", return_value=mock.Mock(free=2**20)), mock.patch.object(self.work.Told, "say", lambda _, it: said.append(it)):
            self.assertFalse(self.work.Build("a", crates, {"a"}, None).announce())
            self.assertIn("make room", said[0])
        with mock.patch.object(self.work.Told, "say", lambda _, it: said.append(it)):
            self.assertTrue(self.work.Build("a", crates, {"a"}, None).announce())
            self.assertIn("some 2 minutes and 0.2 GB of disk", said[1])

    def test_table(self):
        costs, total = self.table.read_table()
        names = self.crates.crates_of((ROOT / "crates.txt").read_text())
        self.assertFalse(set(costs) - set(names), "crates of the table that are none")
        self.assertTrue({"auc_graph", "auction", "sigdorf_c"} <= set(costs))
        self.assertAlmostEqual(sum(cost.megabytes for cost in costs.values()), total.megabytes, delta=total.megabytes / 2)
        self.write("log", "a 1.00 5\ntotal 1.0 2.0 5\n")
        lines = self.table.table_of(self.folder / "log").splitlines()
        self.assertEqual(lines[-2:], ["a 1.00 5", "total 1.0 2.0 5"])
