"""Tables as they lie in offices: letters, titles above, gaps that are words, times, signs, rounding, lines of JSON."""
import json

from calls import ToolTest

CREW = "2\n1 1 4\n1 2 5\n2 1 6\n2 2 7\n"
TABLE = "who,x,y\na,4,5\nb,6,7\n"


class ReadingTest(ToolTest):
    def read_as(self, content, *words, name="table.csv", status=0):
        """The arc file of a table, and what is said of it."""
        self.write(name, content)
        answer = self.call("tools/from_csv", name, "--arcs", "arcs", "--names", "names", *words)
        self.assertEqual(answer[0], status, answer)
        return self.read("arcs"), answer[2]

    def names(self):
        told = json.loads(self.read("names"))
        return told["persons"], told["objects"]


class Letters(ReadingTest):
    TEXT = "Monteur;Fr\u00fch;Sp\u00e4t\nM\u00fcller;4;5\nGro\u00df;6;7\n"

    def test_encodings(self):
        for encoding, note in [
            ("utf-8", ""),
            ("utf-8-sig", ""),
            ("cp1252", "line 1 is no UTF-8, and the table is read as Windows-1252, where byte 11 of the line is `\u00fc`"),
            ("utf-16", "it is UTF-16, and is read as that"),
            ("utf-16-le", "it looks like UTF-16 without a byte order mark, and is read as utf-16-le"),
            ("utf-16-be", "it looks like UTF-16 without a byte order mark, and is read as utf-16-be"),
        ]:
            with self.subTest(encoding):
                arcs, said = self.read_as(self.TEXT.encode(encoding), "--matrix")
                self.assertEqual((arcs, self.names()), (CREW, (["M\u00fcller", "Gro\u00df"], ["Fr\u00fch", "Sp\u00e4t"])))
                self.assertEqual(said.count("\n"), int(bool(note)))
                self.assertIn(note, said)

    def test_as_said(self):
        arcs, said = self.read_as(self.TEXT.encode("cp1250"), "--matrix", "--encoding", "cp1250")
        self.assertEqual((arcs, said, self.names()[0]), (CREW, "", ["M\u00fcller", "Gro\u00df"]))
        self.assert_fault(self.call("tools/from_csv", "table.csv", "--encoding", "nosuch"), "--encoding nosuch", "say utf-8")
        self.assert_fault(self.call("tools/from_csv", "table.csv", "--encoding", "hex"), "--encoding hex", "say utf-8")


class Places(ReadingTest):
    def test_titles_above(self):
        for above, lines in [("Week 48,,\n", "line 1 is"), ("Week 48\n", "line 1 is"), ("Week 48,,\n,,\nnorth,,\n", "2 lines down to 3 are")]:
            arcs, said = self.read_as(above + TABLE, "--matrix")
            self.assertEqual(arcs, CREW)
            self.assertIn(f"note: table.csv: {lines} above the header", said)
        self.assertEqual(self.read_as("Week 48,,\nwho,what,min\na,x,4\na,y,5\nb,x,6\nb,y,7\n")[0], CREW)
        self.assertEqual(self.read_as("Week 48,,\nwho,2026-11-28,29.11.2026\na,4,5\nb,6,7\n", "--matrix")[0], CREW)

    def test_title_with_a_separator(self):
        """What parts the table isn't told by a title above it."""
        self.assertEqual(self.read_as("Plan, week 48, north\nwho;x;y\na;4;5\nb;6;7\n", "--matrix")[0], CREW)

    def test_no_title(self):
        """A header or a pair in which something was forgotten is no title."""
        for table, place in [
            (",,\na,4,5\nb,6,7\n", "line 2"), ("who,,,\na,4,5,6\nb,6,7,8\n", "line 1, column 2"),
            ("who,x,,z\na,4,5,6\nb,6,7,8\n", "line 1, column 3"), ("who,what,\na,x,few\nb,y,2\n", "line 1, column 3"),
        ]:
            self.write("table.csv", table)
            self.assert_fault(self.call("tools/from_csv", "table.csv"), f"table.csv, {place}")

    def test_empty_columns_in_front(self):
        table = ",,who,x,y\n,,a,4,5\n,,b,6,7\n"
        self.assertEqual(self.read_as(table, "--matrix"), (CREW, ""))
        self.write("table.csv", table.replace("7", "few"))
        self.assert_fault(self.call("tools/from_csv", "table.csv", "--matrix"), "table.csv, line 3, column 5", "`few`")
        # Names that were forgotten aren't taken out of the costs.
        self.write("table.csv", ",x,y,z\n,1,2,3\n,4,5,6\n")
        self.assert_fault(self.call("tools/from_csv", "table.csv"), "table.csv, line 2, column 1", "a name is wanted")

    def test_range(self):
        table = "from the office,,,,\nprinted,12,,,\n,who,x,y,sum\n,a,4,5,9\n,b,6,7,13\n,sum,10,12,22\n"
        for said in ("B3:D5", "b3:d5", "$B$3:$D$5"):
            self.assertEqual(self.read_as(table, "--matrix", "--range", said), (CREW, ""))
        self.write("table.csv", table.replace("7", "few"))
        self.assert_fault(self.call("tools/from_csv", "table.csv", "--matrix", "--range", "B3:D5"), "line 5, column 4", "`few`")
        for word in ("B3", "3:5", "D5:B3", "B0:D5"):
            self.assert_fault(self.call("tools/from_csv", "table.csv", "--range", word), f"--range {word}")
        self.write("table.json", '[["who", "x"], ["a", 1]]')
        self.assert_fault(self.call("tools/from_csv", "table.json", "--range", "A1:B2"), "--range", "leave it out")

    def test_two_levels(self):
        table = ",Mon,,Tue,\nwho,early,late,early,late\na,1,2,3,4\n"
        arcs, said = self.read_as(table)
        self.assertEqual((arcs, self.names()), ("1\n1 1 1\n1 2 2\n1 3 3\n1 4 4\n", (["a"], ["Mon early", "Mon late", "Tue early", "Tue late"])))
        self.assertIn("lines 1 and 2 are read as a header of two levels, with names such as `Mon early`", said)
        self.assertEqual(self.read_as(f"Week 48,,,,\n{table.replace('Mon,,Tue,', 'Mon,Mon,Tue,Tue')}")[0], arcs)
        self.assertEqual(self.names()[1][3], "Tue late")
        # Names that differ need no upper level.
        self.assertIn("line 1 is above the header", self.read_as(",Mon,,Tue,\nwho,a,b,c,d\na,1,2,3,4\n")[1])
        self.assertEqual(self.names()[1], ["a", "b", "c", "d"])
        self.write("table.csv", ",Mon,,Tue,\nwho,1,2,1,2\na,1,2,3,4\n")
        self.assert_fault(self.call("tools/from_csv", "table.csv"), "line 1, column 3", "a name is wanted")


class Gaps(ReadingTest):
    def test_words(self):
        table = "who,x,y,z\na,4,x,n/a\nb,-,9999,7\n"
        words = [word for gap in ("x", "n/a", "-", "9999") for word in ("--gap", gap)]
        self.assertEqual(self.read_as(table, *words)[0], "2\n1 1 4\n2 3 7\n")
        self.assertEqual(self.names()[1], ["x", "y", "z"])
        self.assertEqual(self.read_as("a,x,x\na,y,5\nb,x,6\n", "--gap", "x", "--pairs")[0], "2\n1 2 5\n2 1 6\n")
        self.assertEqual(self.read_as("4,x\nx,5\n", "--gap", "x", "--no-header", "--matrix")[0], "2\n1 1 4\n2 2 5\n")

    def test_pairs_without_a_cost(self):
        self.assertEqual(self.read_as("a,x,4\na,y,\nb,y,7\n"), ("2\n1 1 4\n2 2 7\n", ""))
        self.assertEqual(self.read_as("who,what,cost\na,x,4\nc,z,\nb,y,7\n"), ("3\n1 1 4\n3 3 7\n", ""))
        self.assertEqual(self.names(), (["a", "c", "b"], ["x", "z", "y"]))
        self.write("table.csv", "a,x,4\nb,y,7\na,x,\n")
        self.assert_fault(self.call("tools/from_csv", "table.csv"), "line 3, column 3", "`a` and `x` have another cost in line 1")


class Amounts(ReadingTest):
    def costs(self, table, *words):
        arcs, said = self.read_as(table, *words)
        return [int(line.split()[2]) for line in arcs.splitlines()[1:]], said

    def test_times(self):
        for table, costs in [
            ("a,x,1:30\na,y,0:45\nb,x,-0:05\nb,y,26:00\n", [90, 45, -5, 1560]),
            ("a,x,0:01:30\na,y,1:00:00\n", [90, 3600]),
            ("who,x,y,z\na,1:30,,0:10\n", [90, 10]),
        ]:
            self.assertEqual(self.costs(table), (costs, "from_csv: table.csv: the costs are times\n"))
        self.assertEqual(self.costs("a,x,1:30\na,y,0:45\n", "--maximise")[0], [-90, -45])

    def test_times_are_told_as_they_came(self):
        certificate = "auction 1\noptimal 2 94\nassign 1 2 45\nassign 2 1 49\nprice 1 0\nprice 2 0\n"
        self.read_as("a,x,9:30\na,y,0:45\nb,x,0:49\nb,y,9:00\n")
        self.write("certificate", certificate)
        plan = "person,object,cost\na,y,0:45\nb,x,0:49\ntotal,,1:34\n"
        self.assertEqual(self.call("tools/to_csv", "certificate", "names"), (0, plan, ""))

    def test_signs(self):
        for table, costs, sign in [
            ("a;x;\u20ac 1.250,50\na;y;800 \u20ac\nb;x;-\u20ac5\nb;y;7\n", [12505, 8000, -50, 70], "\u20ac"),
            ('a,x,$900\na,y,"$1,250.50"\n', [9000, 12505], "$"),
            ("a,x,95%\na,y,7.5 %\n", [950, 75], "%"),
        ]:
            found, said = self.costs(table)
            self.assertEqual(found, costs)
            self.assertIn(f"note: table.csv: the sign `{sign}` of costs is left out\n", said)

    def test_exponents(self):
        for table, costs in [("a,x,1e3\na,y,2.5E+02\nb,x,5e-1\nb,y,-1E0\n", [10000, 2500, 5, -10]), ("a;x;1,23E+02\na;y;4\n", [123, 4])]:
            found, said = self.costs(table)
            self.assertEqual(found, costs)
            self.assertIn("is read as", said)

    def test_rounding(self):
        table = "a,x,0.333333333333333\na,y,0.125\nb,x,-0.125\nb,y,7\n"
        self.assertEqual(self.costs(table, "--round", "2"), ([33, 13, -13, 700], "from_csv: table.csv: the costs have 2 decimals\nfrom_csv: note: table.csv: 3 costs are rounded to 2 decimals\n"))
        self.assertEqual(self.costs("a,x,1.5\na,y,2.4999999999\n", "--round", "0")[0], [2, 2])
        self.assertEqual(self.costs("a,x,1.5\na,y,2\n", "--round", "3")[0], [15, 20])
        self.write("table.csv", table)
        self.assert_fault(self.call("tools/from_csv", "table.csv"), "line 1, column 3", "--round 8 does it")
        self.assert_fault(self.call("tools/from_csv", "table.csv", "--round", "2", "--decimals", "2"), "--round 2", "leave one of them out")


class Lines(ReadingTest):
    def test_json_lines(self):
        records = '{"who": "a", "what": "x", "cost": 4}\n{"who": "a", "what": "y", "cost": 5}\n\n{"who": "b", "what": "x", "cost": 6}\n{"who": "b", "what": "y", "cost": 7}\n'
        for name in ("table.jsonl", "table.ndjson", "table.json"):
            self.assertEqual(self.read_as(records, name=name), (CREW, ""))
        self.assertEqual(self.read_as('["who", "x", "y"]\n["a", 4, 5]\n["b", 6, 7]\n', "--matrix", name="table.jsonl"), (CREW, ""))
        self.write("table.jsonl", records.replace("6", "few"))
        self.assert_fault(self.call("tools/from_csv", "table.jsonl"), "table.jsonl, line 4, column")
        self.write("table.jsonl", records.replace("6", '"few"'))
        self.assert_fault(self.call("tools/from_csv", "table.jsonl"), "table.jsonl, line 4, column 3", "`few`")
