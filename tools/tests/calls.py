"""Calls of the tools as a user makes them: in a folder of its own, by their words."""
import concurrent.futures
import contextlib
import functools
import importlib.machinery
import importlib.util
import io
import os
import pathlib
import subprocess
import sys
import tempfile
import unittest
from unittest import mock

from sigdorf_tools.faults import run

TOOLS = pathlib.Path(__file__).resolve().parents[1]
ROOT = TOOLS.parent


def has_program():
    return unittest.skipUnless("AUCTION" in os.environ, "it needs a built program (--program)")


def told(faults, count):
    """Prints the faults of a run of so many cases and how many passed; the exit status."""
    for fault in faults:
        print(fault)
    print(f"{count - len(faults)} passed, {len(faults)} failed")
    return 1 if faults else 0


def python_with(*modules):
    """A Python that has these modules, this one or the system's; None where neither has."""
    for python in (sys.executable, "/usr/bin/python3"):
        if os.path.exists(python) and subprocess.run([python, "-c", f"import {', '.join(modules)}"], capture_output=True).returncode == 0:
            return python
    return None


@functools.cache
def main_of(tool):
    """The main function of a tool, which is named from the root of the repository."""
    loader = importlib.machinery.SourceFileLoader(f"tool_{os.path.basename(tool)}", str(ROOT / tool))
    module = importlib.util.module_from_spec(importlib.util.spec_from_loader(loader.name, loader))
    loader.exec_module(module)
    return module.main


def called(tool, words):
    """The status of a tool, and what it writes on standard output and standard error, in this process."""
    output, said = io.TextIOWrapper(io.BytesIO(), newline=""), io.StringIO()
    with mock.patch.object(sys, "argv", [os.path.basename(tool), *map(str, words)]), contextlib.redirect_stdout(output), contextlib.redirect_stderr(said):
        try:
            run(main_of(tool))
        except SystemExit as end:
            status = end.code
    output.flush()
    return status, output.buffer.getvalue().decode(), said.getvalue()


class ToolTest(unittest.TestCase):
    """A test with a folder that lasts as long as it does."""

    def setUp(self):
        folder = tempfile.TemporaryDirectory()
        self.addCleanup(folder.cleanup)
        self.folder = pathlib.Path(folder.name)

    def write(self, name, content):
        path = self.folder / name
        path.write_bytes(content if isinstance(content, bytes) else content.encode())
        return path

    def read(self, name):
        return (self.folder / name).read_text(encoding="utf-8")

    def call(self, tool, *words, output=subprocess.PIPE, python=None, text=None):
        """Status, standard output and standard error of a tool, which is named from the root of the repository; a text is its standard input."""
        # Without site packages, which only tables in workbooks want, a call takes half the time.
        command = [*([python] if python else [sys.executable, "-S"]), str(ROOT / tool), *map(str, words)]
        source = {"stdin": subprocess.DEVNULL} if text is None else {"input": text if isinstance(text, bytes) else text.encode()}
        done = subprocess.run(command, cwd=self.folder, stdout=output, stderr=subprocess.PIPE, timeout=120, **source)
        return done.returncode, (done.stdout or b"").decode(), done.stderr.decode()

    def answers(self, calls):
        """The answers of several calls, which run beside one another; each begins with its tool."""
        with concurrent.futures.ThreadPoolExecutor() as threads:
            return list(threads.map(lambda call: self.call(*call), calls))

    def assert_fault(self, answer, *parts):
        """The answer is status 2 with nothing on standard output, and one sentence on standard error that has all parts."""
        status, output, said = answer
        self.assertEqual((status, output), (2, ""), said)
        self.assertEqual(said.count("\n"), 1, said)
        self.assertNotIn("Traceback", said)
        for part in parts:
            self.assertIn(part, said)

    def convert(self, table, *words):
        """The arc file of a table."""
        self.write("table.csv", table)
        status, _, said = self.call("tools/from_csv", "table.csv", *words)
        self.assertEqual((status, said), (0, ""))
        return self.read("table.arcs")

    def plan(self, table, certificate, *words):
        """The plan that a certificate makes of a table."""
        self.convert(table, *words)
        self.write("certificate", certificate)
        return self.call("tools/to_csv", "certificate", "table.names")
