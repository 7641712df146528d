"""Problems above the usual numbers, as whole runs with `--large`: what the program answers, both checkers judge."""
import os
import subprocess
import unittest

from calls import ToolTest, has_program

PERSONS = 10_001
# Each person may take his own object and the next one, which is dearer for all but the last.
ARCS = "".join(f"{person} {person} 5\n{person} {person % PERSONS + 1} {7 if person < PERSONS else 4}\n" for person in range(1, PERSONS + 1))


@has_program()
class LargeProblems(ToolTest):
    def run_program(self, *words):
        done = subprocess.run([os.environ["AUCTION"], *words], cwd=self.folder, stdin=subprocess.DEVNULL, capture_output=True, text=True, timeout=120)
        return done.returncode, done.stdout

    def assert_checked(self, verdict, *words):
        """Both checkers say this of the certificate, and without the flag refuse the problem."""
        answer = (0, verdict + "\n")
        self.assertEqual(self.run_program("check", "problem", "certificate", "--large", *words), answer)
        self.assertEqual(self.call("tools/check_certificate.py", "problem", "certificate", "--large", *words)[:2], answer)

    def solve(self, problem, *words):
        """The status and the first two lines of an answer, which is kept."""
        self.write("problem", problem)
        status, certificate = self.run_program("solve", "problem", "--direct", "--large", *words)
        self.write("certificate", certificate)
        return status, certificate.split("\n")[:2]

    def test_least_cost(self):
        # The last person takes object 1 only if all others move on, at 2 each.
        self.assertEqual(self.solve(f"{PERSONS}\n{ARCS}"), (0, ["auction 3", "optimal 10001 10001 50005"]))
        self.assert_checked("valid optimal 50005")
        self.assertEqual(self.run_program("check", "problem", "certificate"), (5, "refused count\n"))
        self.assertEqual(self.run_program("solve", "problem", "--direct"), (5, "refused count\n"))

    def test_objects(self):
        self.assertEqual(self.solve("2\n1 30000 5\n2 30000 7\n2 29999 8\n", "--objects", "30000"), (0, ["auction 3", "optimal 2 30000 13"]))
        self.assert_checked("valid optimal 13", "--objects", "30000")

    def test_hall_set(self):
        problem = f"{PERSONS}\n" + "".join(f"{person} {min(person, PERSONS - 1)} 5\n" for person in range(1, PERSONS + 1))
        self.assertEqual(self.solve(problem), (3, ["auction 3", "infeasible 2 1"]))
        self.assert_checked("valid infeasible 2 1")
        self.assertEqual(self.run_program("hall", "problem", "--large"), (3, self.read("certificate")))

    def test_start(self):
        self.solve(f"{PERSONS}\n{ARCS}")
        self.write("old", self.read("certificate"))
        self.assertEqual(self.solve(f"{PERSONS}\n{ARCS}", "--from", "old"), (0, ["auction 3", "optimal 10001 10001 50005"]))
        self.assert_checked("valid optimal 50005")

    def test_few_bids(self):
        """Whatever one bid reaches, it is true."""
        status, (version, told) = self.solve(f"{PERSONS}\n{ARCS}", "--bids", "1")
        kind, *_, lower, cost = told.split()
        self.assertEqual((version, status, kind), ("auction 3", *{0: (0, "optimal"), 4: (4, "bracket")}[status]))
        self.assert_checked(f"valid bracket {lower} {cost}" if status else f"valid optimal {cost}")


if __name__ == "__main__":
    unittest.main()
