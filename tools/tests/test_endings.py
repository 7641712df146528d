"""How tools end: by a reader that goes away, by Ctrl-C, by a file that is missing, and by options that don't fit; in
words of their own, and without Python's."""
import os
import signal
import subprocess
import sys
import time
import unittest

from calls import ROOT, ToolTest, has_program

EXAMPLES = ROOT / "examples"
ANSWER = [EXAMPLES / "crew.arcs", EXAMPLES / "crew.certificate"]
TOOLS = ["plan", "tools/from_csv", "tools/to_csv", "tools/picture", "tools/margins", "tools/check_certificate.py"]
CHECKER = "tools/check_certificate.py"
READER_GONE = 128 + signal.SIGPIPE


class Readers(ToolTest):
    def gone(self, tool, *words):
        """The status of a tool whose reader has gone before it writes, as a shell tells it, and what it says."""
        read, write = os.pipe()
        os.close(read)
        try:
            status, _, said = self.call(tool, *words, output=write)
        finally:
            os.close(write)
        return 128 - status if status < 0 else status, said

    def test_that_go_away(self):
        calls = [(tool, *ANSWER) for tool in ("tools/margins", "tools/picture", CHECKER)]
        for tool, *words in [*calls, ("tools/from_csv", EXAMPLES / "crew.csv")]:
            with self.subTest(tool=tool, words=words):
                self.assertEqual(self.gone(tool, *words), (READER_GONE, ""))
        self.call("tools/from_csv", EXAMPLES / "crew.csv")
        self.assertEqual(self.gone("tools/to_csv", ANSWER[1], "crew.names"), (READER_GONE, ""))

    def test_of_the_help(self):
        """Some versions of the library end as if it had been read."""
        for tool in TOOLS:
            with self.subTest(tool=tool):
                status, said = self.gone(tool, "--help")
                self.assertEqual((status in (0, READER_GONE), said), (True, ""))

    @has_program()
    def test_of_a_plan(self):
        self.assertEqual(self.gone("plan", EXAMPLES / "crew.csv"), (READER_GONE, ""))

    def test_output_that_is_full(self):
        """What can't be written is still told."""
        with open("/dev/full", "wb") as full:
            status, _, said = self.call("tools/margins", *ANSWER, output=full)
        self.assertEqual((status, said), (2, "margins: the output: it can't be written: No space left on device\n"))


class Interrupts(ToolTest):
    STAGES = ["argparse", "sigdorf_tools.faults", "json.decoder", "sigdorf_tools.problems", "sigdorf_tools.conversion"]

    def test_while_modules_are_loaded(self):
        """Python tells each module once it is loaded, and goes on with the next one. A table from a pipe that stays
        open makes the tool wait at last."""
        for tool in ("plan", "tools/from_csv"):
            for stage in self.STAGES:
                with self.subTest(tool=tool, stage=stage):
                    self.assert_ended(tool, stage)

    def assert_ended(self, tool, stage):
        command = [sys.executable, "-S", "-X", "importtime", str(ROOT / tool), "-"]
        pipes = dict.fromkeys(("stdin", "stdout", "stderr"), subprocess.PIPE)
        with subprocess.Popen(command, **pipes, text=True) as running:
            while not running.stderr.readline().rstrip().endswith(f" {stage}"):
                self.assertIsNone(running.poll())
            running.send_signal(signal.SIGINT)
            said = "".join(line for line in running.stderr if not line.startswith("import time:"))
        self.assertIn(running.returncode, (-signal.SIGINT, 128 + signal.SIGINT), said)
        self.assertIn(said, ("", f"{os.path.basename(tool)}: stopped\n"))

    def test_while_it_runs(self):
        command = [sys.executable, "-S", str(ROOT / "plan"), "-"]
        with subprocess.Popen(command, stdin=subprocess.PIPE, stderr=subprocess.PIPE, text=True) as running:
            # After a second it waits for the end of the table.
            time.sleep(1)
            running.send_signal(signal.SIGINT)
            self.assertEqual((running.stderr.read(), running.wait()), ("plan: stopped\n", 128 + signal.SIGINT))


class Options(ToolTest):
    """Options are looked at before the table is, and the solver sees none that it would refuse."""

    def test_numbers(self):
        for words, sentence in [
            (["--seconds", "0.5"], "--seconds 0.5: a whole number from 1 to 1,000,000 is wanted"),
            (["--seconds", "0"], "--seconds 0: a whole number from 1 to 1,000,000 is wanted"),
            (["--seconds", "soon"], "--seconds soon: a whole number from 1 to 1,000,000 is wanted"),
            (["--bids", "0"], "--bids 0: a whole number from 1 to 1,000,000,000,000 is wanted"),
            (["--workers", "17"], "--workers 17: a whole number from 0 to 16 is wanted"),
            (["--workers=-1"], "--workers -1: a whole number from 0 to 16 is wanted"),
            (
                ["--workers", "2", "--seconds", "1"],
                "--workers and --seconds: a search by threads has no limit of time; "
                "leave one of them out, or say --bids in place of --seconds",
            ),
        ]:
            with self.subTest(words):
                self.assertEqual(self.call("plan", "nosuch.csv", *words), (2, "", f"plan: {sentence}\n"))

    def test_names_of_outputs(self):
        for words, *parts in [
            (["-o", "plan.xlsx"], "-o plan.xlsx", "name plan.csv"),
            (["-o", "plan.ods", "--json"], "-o plan.ods", "name plan.csv"),
            (["-o", "plan.JSON"], "-o plan.JSON", "say --json, or name plan.csv"),
            (["-o", "plan.html"], "say --html, or name plan.csv"),
            (["-o", "plan.html", "--json"], "say --html in place of --json, or name plan.json"),
            (["-o", "plan.json", "--html"], "say --json in place of --html, or name plan.html"),
            (["-o", "plan.csv", "--json"], "leave --json out, or name plan.json"),
            (["-o", "plan.tsv", "--html"], "leave --html out, or name plan.html"),
        ]:
            with self.subTest(words):
                self.assert_fault(self.call("plan", "nosuch.csv", *words), *parts)
        for words in ("plan.txt --json", "plan", "plan.html --html", "plan.json --json", "plan.csv"):
            answer = self.call("plan", "nosuch.csv", "-o", *words.split())
            self.assert_fault(answer, "nosuch.csv: there is no such file")

    def test_capacities(self):
        self.write("table.csv", "van 1,x,1\n")
        for word in ("-1", "1,5", "1.5", "few"):
            wanted = "a whole number from 0 to 10,000 is wanted, or a file of persons and numbers"
            answer = self.call("plan", "table.csv", "--program", "nosuch", "--capacity", word)
            self.assertEqual(answer, (2, "", f"plan: --capacity {word}: {wanted}, and there is no such file\n"))
        self.write("capacities.csv", "van,tours\nvan 1,2\nvan 9,1\n")
        answer = self.call("plan", "table.csv", "--program", "nosuch", "--capacity", "capacities.csv")
        place = "capacities.csv, line 3, column 1"
        self.assert_fault(answer, f"{place}: the table has no person `van 9`; is `van 1` meant?")


class Files(ToolTest):
    def test_that_are_missing(self):
        for words, name in [(["nosuch", ANSWER[1]], "nosuch"), ([ANSWER[0], "nosuch"], "nosuch")]:
            said = f"check_certificate.py: {name}: it can't be opened: No such file or directory\n"
            self.assertEqual(self.call(CHECKER, *words), (5, "", said))


if __name__ == "__main__":
    unittest.main()
