"""What a plan is written as: a workbook that openpyxl opens, and tables by jobs."""
import json
import re
import shutil
import subprocess
import zipfile

from calls import ROOT, ToolTest, has_program, python_with

CREW = ROOT / "examples" / "crew.csv"
READ = """
import json, openpyxl, sys
book = openpyxl.load_workbook(sys.argv[1])
def told(cell):
    return [str(cell.value), cell.data_type] if cell.data_type in "df" else cell.value
print(json.dumps({sheet.title: [[told(cell) for cell in row] for row in sheet.iter_rows()] for sheet in book}))
"""


@has_program()
class Books(ToolTest):
    def book(self, table, *words, status=0):
        """The rows of each sheet of a plan's workbook."""
        python = python_with("openpyxl")
        if not python:
            self.skipTest("it needs openpyxl")
        answer = self.call("plan", table, "-o", "plan.xlsx", *words, python=python)
        self.assertEqual(answer[:2], (status, ""), answer)
        done = subprocess.run([python, "-c", READ, self.folder / "plan.xlsx"], capture_output=True, text=True, check=True)
        return json.loads(done.stdout), answer[2]

    def test_sheets(self):
        book, said = self.book(CREW, "--forbid", "Ada=roof")
        self.assertEqual(list(book), ["Plan", "By person", "By job", "Asked", "Why"])
        self.assertEqual(book["Plan"], [["fitter", "object", "cost"], ["Ada", "pump", 40], ["Ben", "wiring", 20], ["Cleo", "roof", 45], ["Dan", "survey", 40], ["total", None, 145]])
        self.assertEqual(book["By person"][:2], [["fitter", "number", "cost", "object"], ["Ada", 1, 40, "pump"]])
        self.assertEqual(book["By job"][1:4], [["pump", "Ada", 40], ["roof", "Cleo", 45], ["wiring", "Ben", 20]])
        asked = dict(book["Asked"])
        self.assertEqual((asked["table"], asked["wish"], asked["answer"][:24]), ("crew.csv", "--forbid Ada=roof", "A best plan within the w"))
        self.assertRegex(asked["planned"], "^20[0-9]{2}-[0-9]{2}-[0-9]{2} [0-9]{2}:[0-9]{2}$")
        self.assertEqual(book["Why"][1], ["Ada", "pump", 40, 0, 40, None, "Ada"])

    def test_amounts(self):
        self.write("table.csv", "a;x;1,5\na;y;2,25\nb;x;3\n")
        self.assertEqual(self.book("table.csv")[0]["Plan"][1:], [["a", "y", 2.25], ["b", "x", 3], ["total", None, 5.25]])
        self.write("table.csv", "a,x,1:30\na,y,26:00\nb,x,0:45\n")
        # The library tells durations from the first day of Excel's calendar on.
        self.assertEqual([row[2][1] for row in self.book("table.csv")[0]["Plan"][1:]], ["d", "d", "d"])

    def test_names_are_no_formulas(self):
        self.write("table.csv", "=1+1,<img onerror=x>,4\nb,@y,5\n")
        self.assertEqual(self.book("table.csv")[0]["Plan"][1:3], [["=1+1", "<img onerror=x>", 4], ["b", "@y", 5]])

    def test_calendar(self):
        self.write("table.csv", "who,2026-11-28 early,2026-11-28 late,2026-11-29 early\nAda,1,9,1\nBen,9,1,9\n")
        book, _ = self.book("table.csv", "--capacity", "2")
        self.assertEqual(book["Calendar"], [["who", "2026-11-28", "2026-11-29"], ["Ada", "early", "early"], ["Ben", "late", None]])

    def test_no_plan(self):
        book, said = self.book(ROOT / "examples" / "crew_without_licences.csv", status=3)
        self.assertEqual(list(book), ["No plan", "Asked"])
        self.assertEqual(book["No plan"][1:3], [["person", "Ada"], ["person", "Ben"]])

    def test_other_wishes(self):
        book, _ = self.book(CREW, "--need", "1", "--capacity", "2")
        self.assertNotIn("Why", book)
        book, _ = self.book(CREW, "--second")
        self.assertEqual((book["Plan"][-1], "Why" in book), (["total", None, 150], False))

    def test_in_libreoffice(self):
        """LibreOffice shows each sheet as it was written: numbers, times, and names that are no formulas."""
        if not shutil.which("soffice"):
            self.skipTest("it needs LibreOffice")
        self.write("table.csv", "who,2026-11-28,=1+1\nAda,0:40,26:15\nBen,1:05,0:20\n")
        self.book("table.csv", "--matrix")
        # All sheets, as they are shown, each in a file of its own; settings of a user are left alone.
        form = "csv:Text - txt - csv (StarCalc):44,34,76,1,,0,false,true,false,false,false,-1"
        command = ["soffice", f"-env:UserInstallation=file://{self.folder}/office", "--headless", "--convert-to"]
        subprocess.run([*command, form, "plan.xlsx"], cwd=self.folder, check=True, capture_output=True, timeout=120)
        files = sorted(path.name for path in self.folder.glob("plan-*.csv"))
        self.assertEqual(files, [f"plan-{sheet}.csv" for sheet in ("Asked", "By job", "By person", "Plan", "Why")])
        self.assertEqual(self.read("plan-By person.csv").splitlines()[0], "who,number,cost,object")
        subprocess.run([*command, "ods", "plan.xlsx"], cwd=self.folder, check=True, capture_output=True, timeout=120)
        with zipfile.ZipFile(self.folder / "plan.ods") as archive:
            shown = re.findall("<text:p>([^<]*)</text:p>", archive.read("content.xml").decode())
        self.assertEqual(shown[:11], ["who", "object", "cost", "Ada", "2026-11-28", "0:40", "Ben", "=1+1", "0:20", "total", "1:00"])

    def test_plan_of_yesterday(self):
        """A plan in a workbook is read again by the name of its sheet."""
        self.book(CREW)
        answer = self.call("plan", CREW, "--keep", "plan.xlsx:Plan", "--change-cost", "1", python=python_with("openpyxl"))
        self.assertIn("total 145 with 0 changes at 1 each", answer[2])


@has_program()
class ByJobs(ToolTest):
    def test_rows(self):
        self.write("table.csv", "a;y;1,5\nb;x;2\nb;y;4\nc;y;1\nb;z;9\n")
        status, output, _ = self.call("plan", "table.csv", "--by", "job", "--leave-free", "3")
        self.assertEqual((status, output), (0, "object;person;cost\ny;c;1,0\nx;b;2,0\nz;;\n;a;3,0\ntotal;;6,0\n"))
        self.assertEqual(self.call("plan", "table.csv", "--by", "person")[1], self.call("plan", "table.csv")[1])

    def test_no_plan(self):
        self.write("table.csv", "a,x,1\nb,x,2\nc,y,1\nc,z,1\n")
        self.assertEqual(self.call("plan", "table.csv", "--by", "job")[:2], self.call("plan", "table.csv")[:2])

    def test_faults(self):
        for words in (["--json"], ["--html"], ["--why", "Ada"], ["-o", "plan.xlsx"]):
            answer = self.call("plan", CREW, "--by", "job", *words, python=python_with("openpyxl"))
            self.assert_fault(answer, "--by job", "leave it out")


class Faults(ToolTest):
    def test_without_the_library(self):
        self.assert_fault(self.call("plan", CREW, "-o", "plan.xlsx"), "-o plan.xlsx", "openpyxl", "name plan.csv")

    def test_other_forms(self):
        python = python_with("openpyxl")
        for words, *parts in [
            (["-o", "plan.ods"], "plan.xlsx"),
            (["--json", "-o", "plan.xlsx"], "leave --json out"),
            (["--html", "-o", "plan.xlsx"], "leave --html out"),
            (["--why", "Ada", "-o", "plan.xlsx"], "leave --why out"),
        ]:
            if python:
                self.assert_fault(self.call("plan", CREW, *words, python=python), f"-o {words[-1]}", *parts)
