"""to_csv: plans in the words of the table, and certificates that aren't of it."""
import json

from calls import ToolTest

PAIRS = "fitter,job,minutes\nAda,pump,40\nAda,roof,65\nBen,pump,35\nBen,roof,20\n"
BEST = "auction 1\noptimal 2 60\nassign 1 1 40\nassign 2 2 20\nprice 1 0\nprice 2 0\n"


class Plans(ToolTest):
    def test_best_plan(self):
        self.assertEqual(self.plan(PAIRS, BEST), (0, "fitter,job,minutes\nAda,pump,40\nBen,roof,20\ntotal,,60\n", ""))

    def test_separator_and_comma_of_the_table(self):
        certificate = "auction 1\noptimal 2 375\nassign 1 1 150\nassign 2 2 225\nprice 1 0\nprice 2 0\n"
        self.assertEqual(self.plan("a;x;1,5\nb;y;2,25\n", certificate, "--decimals", "2"), (0, "person;object;cost\na;x;1,50\nb;y;2,25\ntotal;;3,75\n", ""))

    def test_maximise_tells_the_sign_of_the_table(self):
        certificate = "auction 1\noptimal 2 -2\nassign 1 1 -4\nassign 2 2 2\nprice 1 0\nprice 2 0\n"
        self.assertEqual(self.plan("a,x,4\nb,y,-2\n", certificate, "--maximise")[1], "person,object,cost\na,x,4\nb,y,-2\ntotal,,2\n")

    def test_quoted_names(self):
        certificate = "auction 1\noptimal 1 4\nassign 1 1 4\nprice 1 0\n"
        self.assertEqual(self.plan('"Smith, Ann","the ""big"" pump",4\n', certificate)[1], 'person,object,cost\n"Smith, Ann","the ""big"" pump",4\ntotal,,4\n')

    def test_more_objects(self):
        certificate = "auction 2\noptimal 1 2 4\nassign 1 1 4\nprice 1 0\nprice 2 0\n"
        self.assertEqual(self.plan("a,x,4\na,y,5\n", certificate)[1], "person,object,cost\na,x,4\n,y,\ntotal,,4\n")

    def test_dummies_are_left_out(self):
        more_persons = "auction 1\noptimal 2 4\nassign 1 1 4\nassign 2 2 0\nprice 1 0\nprice 2 12\n"
        self.assertEqual(self.plan("a,x,4\nb,x,5\n", more_persons)[1], "person,object,cost\na,x,4\nb,,\ntotal,,4\n")

    def test_hall_set(self):
        certificate = "auction 1\ninfeasible 2 1\nperson 1\nperson 2\nobject 1\n"
        sentence = '"No plan gives every person an object: a and b may take x, and nothing else."\n'
        self.assertEqual(self.plan("a,x,4\nb,x,5\nc,y,1\nc,z,1\n", certificate)[1], sentence + "person,a\nperson,b\nobject,x\n")

    def test_hall_set_of_objects(self):
        """Persons are more than objects: so it is told which objects too few persons may take."""
        certificate = "auction 1\ninfeasible 3 2\nperson 1\nperson 2\nperson 3\nobject 1\nobject 4\n"
        sentence = '"No plan gives every object to somebody: y and z can go to d, and to nobody else."\n'
        answer = self.plan("a,x,4\nb,x,5\nc,x,1\nd,y,1\nd,z,2\n", certificate)
        self.assertEqual(answer, (0, sentence + "person,d\nobject,y\nobject,z\n", ""))

    def test_bracket(self):
        certificate = "auction 1\nbracket bids 2 55 60\nassign 1 1 40\nassign 2 2 20\nprice 1 90\nprice 2 0\n"
        self.assertEqual(self.plan(PAIRS, certificate)[1].splitlines()[-1].strip('"'), "The search was stopped early: this plan is at most 5 from the best, and no total is below 55.")


class Faults(ToolTest):
    CERTIFICATES = {
        "empty": ("", "line 1"),
        "no certificate": ("hello\n", "line 1"),
        "cut": ("auction 1\noptimal 2 60\nassign 1 1 40\n", "line 4"),
        "binary": (b"\xff\x00\x80\n", "line 1"),
        "another size": ("auction 1\noptimal 1 4\nassign 1 1 4\nprice 1 0\n", "another problem", "number of persons"),
        "another cost": (BEST.replace("1 1 40", "1 1 41").replace("60", "61"), "another problem", "person 1"),
        "another sum": (BEST.replace("60", "61"), "another sum"),
        "more objects": ("auction 2\noptimal 2 3 60\nassign 1 1 40\nassign 2 2 20\nprice 1 0\nprice 2 0\nprice 3 0\n", "number of persons or objects"),
        "object twice": ("auction 1\noptimal 2 75\nassign 1 1 40\nassign 2 1 35\nprice 1 0\nprice 2 0\n", "object 1", "twice"),
        "not the least": ("auction 1\noptimal 2 100\nassign 1 2 65\nassign 2 1 35\nprice 1 0\nprice 2 0\n", "person 1"),
        "no Hall set": ("auction 1\ninfeasible 2 1\nperson 1\nperson 2\nobject 1\n", "another problem"),
    }
    NAMES = {
        "empty": "",
        "no JSON": "hello",
        "another JSON": "[1, 2]",
        "deep": "[" * 100000,
        "binary": b"\xff\xfe",
        "no format": "{}",
    }

    def spoiled(self, texts, *call):
        """The answers of a call for each text, which stands in a file of its own: `spoiled` in the call is its name."""
        for number, text in enumerate(texts):
            self.write(f"spoiled{number}", text)
        return self.answers([[f"spoiled{number}" if word == "spoiled" else word for word in call] for number in range(len(texts))])

    def test_certificates(self):
        self.convert(PAIRS)
        answers = self.spoiled([text for text, *_ in self.CERTIFICATES.values()], "tools/to_csv", "spoiled", "table.names")
        for (name, (_, *parts)), answer in zip(self.CERTIFICATES.items(), answers):
            with self.subTest(name):
                self.assert_fault(answer, "spoiled", *parts)

    def test_names(self):
        self.write("certificate", BEST)
        for name, answer in zip(self.NAMES, self.spoiled(self.NAMES.values(), "tools/to_csv", "certificate", "spoiled")):
            with self.subTest(name):
                self.assert_fault(answer, "spoiled", "no names file")

    def test_fields(self):
        self.convert(PAIRS)
        self.write("certificate", BEST)
        fields = json.loads(self.read("table.names"))
        changes = [("persons", None), ("persons", [1, 2]), ("decimals", -1), ("decimals", True), ("separator", "x"), ("dummy_objects", 1), ("arcs", "x"), ("arcs", "3\n"), ("titles", [])]
        texts = [json.dumps(fields | {field: value}) for field, value in changes]
        for change, answer in zip(changes, self.spoiled(texts, "tools/to_csv", "certificate", "spoiled")):
            with self.subTest(change):
                self.assert_fault(answer, "spoiled", change[0])

    def test_output_that_cannot_be_written(self):
        self.convert(PAIRS)
        self.write("certificate", BEST)
        with open("/dev/full", "wb") as full:
            self.assert_fault(self.call("tools/to_csv", "certificate", "table.names", output=full), "the output", "can't be written")

    def test_files(self):
        self.write("certificate", BEST)
        self.assert_fault(self.call("tools/to_csv", "certificate", "nosuch"), "nosuch", "no such file")
        self.assert_fault(self.call("tools/to_csv", "certificate", "."), "folder")
        self.convert(PAIRS)
        self.assert_fault(self.call("tools/to_csv", "nosuch", "table.names"), "nosuch", "no such file")
