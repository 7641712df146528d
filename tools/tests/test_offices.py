"""Tables as they lie in offices, in the folder `tables`: each one gives the plan that tables.toml tells, or the sentence that names the
cell and the way out."""
import concurrent.futures
import functools
import pathlib
import shutil
import subprocess
import tempfile
import tomllib

from calls import ToolTest, has_program, python_with

TABLES = pathlib.Path(__file__).resolve().parent / "tables"
BOOKS = (".xlsx", ".ods")


@functools.cache
def folder_of(python):
    """A folder with all tables, the workbooks among them, which are made once, where the libraries are installed."""
    folder = tempfile.TemporaryDirectory()
    shutil.copytree(TABLES, folder.name, dirs_exist_ok=True)
    if python:
        subprocess.run([python, TABLES / "books.py"], cwd=folder.name, check=True)
    return folder


class Offices(ToolTest):
    def setUp(self):
        super().setUp()
        self.python = python_with("openpyxl", "odf")
        self.folder = pathlib.Path(folder_of(self.python).name)
        self.calls = [(file, call) for file, calls in tomllib.loads((TABLES / "tables.toml").read_text(encoding="utf-8")).items() for call in calls]

    def planned(self, file, call):
        """The answer of a table to a call."""
        words = call.get("words", [])
        table = [] if words and words[0].startswith(file) else [file]
        return self.call("plan", *table, *words, "--quiet", python=self.python if file.endswith(BOOKS) else None)

    def look(self, call, answer):
        """The answer of a table is what it has to be, and each line on standard error is told."""
        status, output, said = answer
        self.assertEqual((status, output), (call.get("status", 0), call.get("plan", "").removeprefix("\n")), said)
        lines = said.splitlines()
        self.assertEqual(len(lines), len(call.get("says", [])), said)
        for line, part in zip(lines, call.get("says", [])):
            self.assertIn(part, line)

    @has_program()
    def test_tables(self):
        """Workbooks are skipped where the libraries aren't installed, and named."""
        tried = [(file, call) for file, call in self.calls if self.python or not file.endswith(BOOKS)]
        with concurrent.futures.ThreadPoolExecutor() as threads:
            answers = list(threads.map(lambda each: self.planned(*each), tried))
        for (file, call), answer in zip(tried, answers):
            with self.subTest(file, words=call.get("words", [])):
                self.look(call, answer)
        self.assertGreaterEqual(len({file for file, _ in tried}), 40)
        if len(tried) < len(self.calls):
            self.skipTest("workbooks need openpyxl and odfpy")

    def test_all_are_tried(self):
        """Each file of the folder stands in the list, or is named by a call; and each call has a plan or a sentence."""
        named = {file for file, _ in self.calls} | {word for _, call in self.calls for word in call.get("words", [])}
        files = {path.name for path in TABLES.iterdir() if path.suffix not in (".toml", ".py")}
        self.assertEqual(files - named, set())
        self.assertTrue(all("plan" in call or call.get("says") for _, call in self.calls))
