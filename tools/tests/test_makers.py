"""One plan, as tables of ten makers write it: spreadsheets, programs and people. LibreOffice's are made by itself where it is installed."""
import csv
import io
import shutil
import subprocess
import unittest

from calls import ToolTest, python_with

# Ada may take the pump at 40.5 and the roof at 1,234.5; Ben the pump at 35.25, and the roof not.
PROBLEM = "2\n1 1 4050\n1 2 123450\n2 1 3525\n"
SOFFICE = shutil.which("soffice")
MATRIX = [["Monteur", "Pumpe", "Dach"], ["Ada", "40.5", "1234.5"], ["Ben", "35.25", ""]]
PAIRS = [["Monteur", "Arbeit", "Minuten"], ["Ada", "Pumpe", "40.5"], ["Ada", "Dach", "1234.5"], ["Ben", "Pumpe", "35.25"]]
# The text of each maker's table, and what has to be said of it.
TEXTS = {
    "Excel, German, with the separator on top": ("\ufeffsep=;\r\nMonteur;Pumpe;Dach\r\nAda;40,5;1.234,5\r\nBen;35,25;\r\n", ["--matrix"]),
    "Excel, German, as UTF-8": ("\ufeffMonteur;Arbeit;Minuten\r\nAda;Pumpe;40,5\r\nAda;Dach;1.234,50\r\nBen;Pumpe;35,25\r\n", []),
    "Excel, French, with blanks between thousands": ("Monteur;Arbeit;Minuten\r\nAda;Pumpe;40,5\r\nAda;Dach;1\u202f234,5\r\nBen;Pumpe;35,25\r\n", []),
    "Excel, as text with tabs": ("Monteur\tArbeit\tMinuten\r\nAda\tPumpe\t40.5\r\nAda\tDach\t1234.5\r\nBen\tPumpe\t35.25\r\n", []),
    "Excel with empty columns at the end": ("Monteur,Arbeit,Minuten,,\r\nAda,Pumpe,40.5,,\r\nAda,Dach,1234.5,,\r\nBen,Pumpe,35.25,,\r\n", []),
    "Google, with thousands in quotes": ('Monteur,Pumpe,Dach\r\nAda,40.5,"1,234.5"\r\nBen,35.25,', ["--matrix"]),
    "Numbers, with everything behind semicolons": ("Monteur;Arbeit;Minuten\nAda;Pumpe;40,50\nAda;Dach;1234,50\nBen;Pumpe;35,25\n", []),
    "pandas, with its index and NaN as nothing": (",Pumpe,Dach\nAda,40.5,1234.5\nBen,35.25,\n", []),
    "pandas, long, with its index": (",Monteur,Arbeit,Minuten\n0,Ada,Pumpe,40.5\n1,Ada,Dach,1234.5\n2,Ben,Pumpe,35.25\n", ["--columns", "Monteur,Arbeit,Minuten"]),
    "R, with names in quotes": ('"","Pumpe","Dach"\n"Ada",40.5,1234.5\n"Ben",35.25,\n', []),
    "an editor, without a header": ("Ada, Pumpe, 40.5\nAda, Dach, 1234.5\nBen, Pumpe, 35.25\n", []),
    "a form with remarks": ('Monteur,Arbeit,Minuten,Bemerkung\nAda,Pumpe,40.5,"eilt, bitte"\nAda,Dach,1234.5,\nBen,Pumpe,35.25,\n', ["--ignore-column", "Bemerkung"]),
}


class Makers(ToolTest):
    def look(self, file, words, python=None):
        status, _, said = self.call("tools/from_csv", file, "--arcs", "arcs", "--names", "names", *words, python=python)
        self.assertEqual((status, said), (0, f"from_csv: {file}: the costs have 2 decimals\n"))
        self.assertEqual(self.read("arcs"), PROBLEM)
        for name in ("Ada", "Ben", "Pumpe", "Dach"):
            self.assertIn(f'"{name}"', self.read("names"))

    def test_texts(self):
        for maker, (text, words) in TEXTS.items():
            with self.subTest(maker):
                self.write("table.csv", text)
                self.look("table.csv", words)

    def test_json(self):
        self.write("table.json", '[{"Monteur": "Ada", "Arbeit": "Pumpe", "Minuten": 40.5}, {"Monteur": "Ada", "Arbeit": "Dach", "Minuten": 1234.5}, {"Monteur": "Ben", "Arbeit": "Pumpe", "Minuten": 35.25}]')
        self.look("table.json", [])

    def test_pandas(self):
        """What pandas writes itself."""
        python = python_with("pandas")
        if not python:
            self.skipTest("it needs pandas")
        make = "import pandas; pandas.DataFrame([[40.5, 1234.5], [35.25, None]], ['Ada', 'Ben'], ['Pumpe', 'Dach']).to_csv('table.csv')"
        subprocess.run([python, "-c", make], cwd=self.folder, check=True)
        self.look("table.csv", [])

    @unittest.skipUnless(SOFFICE, "it needs LibreOffice")
    def test_libreoffice(self):
        """A matrix and pairs as .xlsx, .ods and CSV in two ways, as LibreOffice saves them."""
        python = python_with("openpyxl", "odf")
        if not python:
            self.skipTest("it needs openpyxl and odfpy")
        for name, rows in [("matrix", MATRIX), ("pairs", PAIRS)]:
            text = io.StringIO(newline="")
            csv.writer(text).writerows(rows)
            self.write(f"{name}.csv", text.getvalue())
        self.converted(["ods", "xlsx"], "matrix.csv", "pairs.csv")
        for name in ("matrix", "pairs"):
            for kind in ("ods", "xlsx"):
                with self.subTest(name=name, kind=kind):
                    self.look(f"{name}.{kind}", ["--matrix"] if name == "matrix" else [], python)
        (self.folder / "made").mkdir()
        # Semicolons, quotes around all texts, as shown; and tabs.
        for filters in ("59,34,76,1,,0,false,true,true", "9,34,76,1,,0,false,true,false"):
            self.converted([f"csv:Text - txt - csv (StarCalc):{filters}"], "matrix.ods", "pairs.ods", folder="made")
            for name in ("matrix", "pairs"):
                with self.subTest(name=name, filters=filters):
                    shutil.copy(self.folder / "made" / f"{name}.csv", self.folder / "table.csv")
                    self.look("table.csv", ["--matrix"] if name == "matrix" else [])

    def converted(self, kinds, *files, folder="."):
        for kind in kinds:
            command = [SOFFICE, f"-env:UserInstallation=file://{self.folder}/profile", "--headless", "--convert-to", kind, "--outdir", folder, *files]
            subprocess.run(command, cwd=self.folder, check=True, capture_output=True, timeout=300)
