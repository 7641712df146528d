"""plan: a table in, a plan out, by the built program."""
import io
import os
import shutil
import subprocess
import sys
import time
import unittest

from calls import ROOT, ToolTest, has_program
from sigdorf_tools.progress import Progress

SYSTEM = "/usr/bin:/bin"


class Words(ToolTest):
    def test_program_that_is_missing(self):
        self.write("table.csv", "a,x,1\n")
        self.assert_fault(self.call("plan", "table.csv", "--program", "nosuch/auction"), "nosuch/auction")

    def test_faults_of_the_table(self):
        self.write("table.csv", "a,x,1\nb,y\n")
        self.assert_fault(self.call("plan", "table.csv", "--program", "nosuch/auction"), "table.csv, line 2, column 3")


@has_program()
@unittest.skipIf(shutil.which("rt", path=SYSTEM), "rt is among the system's programs")
class WithoutToolchain(ToolTest):
    def test_installed_program(self):
        """In a clone where nothing is built the program on the path solves, and without one it is said what is wanting."""
        clone, programs = self.folder / "clone", self.folder / "programs"
        (clone / "crates").mkdir(parents=True)
        programs.mkdir()
        shutil.copy(ROOT / "plan", clone)
        shutil.copy(ROOT / "auction", clone)
        shutil.copytree(ROOT / "tools", clone / "tools")
        table = self.write("table.csv", "a,x,1\n")
        environment = {"PATH": f"{programs}:{SYSTEM}"}
        done = subprocess.run([sys.executable, clone / "plan", table], env=environment, capture_output=True, text=True)
        self.assertEqual((done.returncode, done.stdout), (2, ""))
        self.assertIn("Rattle toolchain", done.stderr)
        (programs / "auction").symlink_to(os.environ["AUCTION"])
        done = subprocess.run([sys.executable, clone / "plan", table], env=environment, capture_output=True, text=True)
        self.assertEqual((done.returncode, done.stdout), (0, "person,object,cost\na,x,1\ntotal,,1\n"), done.stderr)


@has_program()
class Plans(ToolTest):
    def planned(self, table, *words, status=0):
        """The plan of a table."""
        self.write("table.csv", table)
        answer = self.call("plan", "table.csv", "--quiet", *words)
        self.assertEqual((answer[0], answer[2]), (status, ""))
        return answer[1]

    def test_best_plan(self):
        self.write("table.csv", ",pump,roof\nAda,40,65\nBen,35,20\n")
        status, output, said = self.call("plan", "table.csv", "--form", "matrix")
        self.assertEqual((status, output), (0, "person,object,cost\nAda,pump,40\nBen,roof,20\ntotal,,60\n"))
        checked = "checked by the proved checker and by a second one"
        self.assertRegex(said, rf"^plan: 2 pairs, total 60, the least of all; {checked}, [0-9]+\.[0-9] s\n$")

    def test_no_plan(self):
        self.write("table.csv", "a,x,1\nb,x,2\nc,y,1\nc,z,1\n")
        status, output, said = self.call("plan", "table.csv")
        self.assertEqual(status, 3)
        self.assertIn("a and b may take x", output)
        self.assertRegex(said, "^plan: there is no plan; checked by the proved checker and by a second one, ")

    def test_reason_on_the_terminal(self):
        """Where the answer goes into a file, why there is no plan is told on standard error too, but with --quiet."""
        self.write("table.csv", "a,x,1\nb,x,2\nc,y,1\nc,z,1\n")
        status, output, said = self.call("plan", "table.csv", "-o", "plan.csv")
        reason, last = said.splitlines()
        wanted = "plan: No plan gives every person an object: a and b may take x, and nothing else."
        self.assertEqual((status, output, reason), (3, "", wanted))
        self.assertTrue(last.startswith("plan: there is no plan; checked by "), last)
        self.assertEqual(self.call("plan", "table.csv", "-o", "plan.csv", "--quiet"), (3, "", ""))

    def test_search_that_is_stopped(self):
        # No full table, which would be searched without bids.
        self.write("table.csv", "a,x,1\na,y,2\nb,x,1\n")
        status, output, said = self.call("plan", "table.csv", "--bids", "1")
        self.assertEqual(status, 4)
        self.assertIn("The search was stopped early", output)
        self.assertRegex(said, "^plan: 2 pairs, total [0-9]+, at most [0-9]+ from the best; checked by ")

    def test_search_with_time_enough(self):
        self.write("table.csv", "a,x,1\na,y,2\nb,x,1\nb,y,9\n")
        status, output, said = self.call("plan", "table.csv", "--seconds", "1000")
        self.assertEqual(status, 0)
        self.assertRegex(said, "^plan: 2 pairs, total 3, the least of all; checked by ")

    def test_unequal_numbers(self):
        self.assertEqual(self.planned(",x,y,z\na,5,4,3\nb,1,2,\n"), "person,object,cost\na,z,3\nb,x,1\n,y,\ntotal,,4\n")
        table = ",x,y,\na,5,1,\nb,4,2,\nc,3,,\n".replace(",\n", "\n")
        self.assertEqual(self.planned(table, "--form", "matrix"), "person,object,cost\na,y,1\nc,x,3\nb,,\ntotal,,4\n")

    def test_maximise(self):
        for word in "--maximise", "--maximize":
            self.assertEqual(self.planned("a,x,0.5\na,y,0.75\nb,x,0.25\nb,y,1.25\n", word, "--decimals", "2"), "person,object,cost\na,x,0.50\nb,y,1.25\ntotal,,1.75\n")
        self.write("table.csv", "a,x,5\n")
        self.assertIn("the greatest of all; checked by", self.call("plan", "table.csv", "--maximize")[2])

    def test_second_checker(self):
        """Above 200,000 arcs it judges where that is said."""
        persons = 448
        rows = [",".join(["p", *(f"x{thing}" for thing in range(persons))])]
        rows += [",".join([f"a{person}", *(str((person * thing) % 97 + (person != thing) * 100) for thing in range(persons))]) for person in range(persons)]
        self.write("table.csv", "\n".join(rows))
        (status, _, said), (again, _, told) = self.answers([("plan", "table.csv"), ("plan", "table.csv", "--second-checker")])
        self.assertEqual((status, again), (0, 0))
        self.assertRegex(said, "the least of all; checked by the proved checker, ")
        self.assertRegex(told, "the least of all; checked by the proved checker and by a second one, ")


class Answers(ToolTest):
    """What stands behind a plan is judged, whatever program gives it."""

    def program(self, certificate, verdict):
        path = self.write("auction", f"#!/bin/sh\nif [ $1 = solve ]; then printf '{certificate}'; else cat >/dev/null; echo {verdict}; fi\n")
        path.chmod(0o755)
        return ["plan", "table.csv", "--program", path]

    def test_answers_that_do_not_hold(self):
        self.write("table.csv", "a,x,1\na,y,5\nb,x,2\nb,y,3\n")
        wrong = "auction 1\\noptimal 2 7\\nassign 1 2 5\\nassign 2 1 2\\nprice 1 0\\nprice 2 0\\n"
        self.assert_fault(self.call(*self.program(wrong, "invalid slack 1")), "table.csv", "invalid slack 1")
        # Were the program's own checker at fault too, the second one would see it.
        self.assert_fault(self.call(*self.program(wrong, "valid optimal 7")), "person 1", "better arc")


class ProgressTest(unittest.TestCase):
    class Terminal(io.StringIO):
        def isatty(self):
            return True

    def test_line(self):
        for begun, output, wanted in [(9, self.Terminal(), "\r\x1b[Ksolving, 9 s \r\x1b[K"), (0, self.Terminal(), ""), (9, io.StringIO(), "")]:
            progress = Progress()
            progress.begin, progress.stage = time.monotonic() - begun, "solving"
            with progress.told(output):
                time.sleep(0.3 if begun else 0)
            self.assertEqual(output.getvalue(), wanted)
