"""The page's programs for many problems over processes and over machines, as they stand there: with processes of this machine."""
import importlib.util
import pathlib
import re
import subprocess
import sys
import tempfile
import textwrap
import unittest

from limited import Limited

PAGE = pathlib.Path(__file__).resolve().parents[2] / "docs" / "PYTHON.md"

# What a program of the page is put into: problems before it, and behind it a look at its solutions.
PROGRAM = """
import concurrent.futures, functools, multiprocessing
import numpy, sigdorf

if __name__ == "__main__":
    random = numpy.random.default_rng(1)
    problems = [random.integers(0, 100, (9, 9)) if number % 3 else random.random((7, 5)) for number in range(90)]
    {before}
{program}
    wanted = [sigdorf.solve(problem).exact_cost for problem in problems]
    assert [solution.exact_cost for solution in solutions] == wanted
    for problem, solution in zip(problems, solutions):
        sigdorf.check(solution, problem)
    {behind}
    print("as one by one")
"""
# The page has the parts once, before the processes.
PARTS = "parts = [problems[first : first + 500] for first in range(0, len(problems), 500)]"
CLUSTER = 'import distributed; cluster = distributed.LocalCluster(n_workers=2, threads_per_worker=1, host="127.0.0.1", dashboard_address=None)'


class Machines(Limited):
    def assert_runs(self, word, before="", behind="", change=lambda program: program):
        """Runs the page's program that has a word in it."""
        blocks = re.findall(r"\n\n((?:    .*\n|\n)+)", PAGE.read_text(encoding="utf-8"))
        programs = [block for block in blocks if word in block]
        self.assertEqual(len(programs), 1)
        program = change(textwrap.indent(textwrap.dedent(programs[0]), "    "))
        with tempfile.TemporaryDirectory() as folder:
            path = pathlib.Path(folder, "program.py")
            path.write_text(PROGRAM.format(program=program, before=before, behind=behind), encoding="utf-8")
            done = subprocess.run([sys.executable, "-B", path], capture_output=True, text=True, timeout=50)
        self.assertEqual((done.returncode, done.stdout), (0, "as one by one\n"), done.stderr)

    def test_processes(self):
        self.assert_runs("ProcessPoolExecutor")

    @unittest.skipUnless(importlib.util.find_spec("distributed"), "Dask is not there (Debian's python3-distributed)")
    def test_dask(self):
        self.assertIn(PARTS, PAGE.read_text(encoding="utf-8"))
        self.assert_runs("tcp://", f"{CLUSTER}; {PARTS}", "cluster.close()", lambda program: re.sub('"tcp://.*?"', "cluster.scheduler_address", program))


if __name__ == "__main__":
    unittest.main()
