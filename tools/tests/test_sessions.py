"""What a session of the page answers: the plan that the command writes for a table with the same changes and wishes, in the same words."""
import csv
import io
import os
import random
import re

from calls import ROOT, ToolTest, called, has_program
from served import Served

EXAMPLES = ROOT / "examples"


def without_seconds(line):
    return line.rpartition(", ")[0]


class SessionTest(ToolTest):
    def serve(self, *words):
        self.page = Served(self.folder, *words, "--program", os.environ["AUCTION"])
        self.addCleanup(self.page.end)
        self.page.open()

    def view(self, answer):
        self.assertEqual(answer.status, 200, answer.body)
        return answer.told()

    def planned(self, *words):
        """The rows of the command, and what it says: the last line is that of the plan."""
        _, output, said = called("plan", words)
        *notes, last = said.splitlines()
        return list(csv.reader(io.StringIO(output), delimiter=";" if "tours" in str(words[0]) else ",")), notes, last

    def assert_same(self, view, wanted):
        rows, notes, last = wanted
        answer = view["answer"]
        self.assertEqual(without_seconds(f"plan: {answer['summary']}"), without_seconds(last))
        if answer["kind"] != "infeasible":
            self.assertEqual([[*map(str, row)] for row in answer["rows"]], rows)
        else:
            self.assertEqual([answer["sentence"]], rows[0])
            self.assertEqual([["person", name] for _, name in answer["persons"]] + [["object", name] for _, name in answer["objects"]], rows[1:])
        told = [f"plan: {note}" for note in [*view["notes"], *answer["notes"]]]
        self.assertEqual([re.sub(r"(?<= )/\S*/", "", note) for note in notes], told)


@has_program()
class Sessions(SessionTest):
    def test_examples(self):
        """By the same options, from the command line and from the fields of the page."""
        self.serve()
        for name, options in [
            ("crew.csv", {}),
            ("crew.csv", {"maximise": True}),
            ("crew.csv", {"capacity": "2", "need": "1", "undone": "30"}),
            ("crew_without_licences.csv", {}),
            ("tours.csv", {}),
            ("tours.csv", {"leave_free": "5,5"}),
            ("tracks.csv", {"decimals": "2"}),
        ]:
            with self.subTest(name=name, options=options):
                self.view(self.page.take(name, (EXAMPLES / name).read_bytes()))
                self.view(self.page.send("/options", options))
                words = [f"--{option.replace('_', '-')}" + ("" if value is True else f"={value}") for option, value in options.items()]
                self.assert_same(self.view(self.page.plan()), self.planned(EXAMPLES / name, *words))
                self.view(self.page.send("/options", {}))

    def test_notes(self):
        """What may not be meant is told as by the command: of the table, and of the plan."""
        self.serve()
        for text in (",x,Total\nA,1,9000\nB,2,9000\n", "who,what,cost\nA,x,1.5\nA,y,2\nB,y,9000\nC,z,1\n"):
            table = self.write("table.csv", text)
            self.view(self.page.take("table.csv", text))
            answer = self.view(self.page.plan())
            self.assertIn("9000", " ".join(answer["answer"]["notes"]))
            self.assert_same(answer, self.planned(table))

    def test_random_changes(self):
        """Costs that are changed, and pairs that are fixed and forbidden, some at a time: as in a table that was changed by hand."""
        self.serve()
        for seed in range(60):
            chance = random.Random(seed)
            persons, objects = chance.randint(1, 6), chance.randint(1, 6)
            costs = [[chance.choice(["", *map(str, range(10, 40))]) for _ in range(objects)] for _ in range(persons)]
            costs[0][0] = "12"
            self.page.take("table.csv", self.text_of(costs))
            view = self.view(self.page.send("/options", {"form": "matrix"}))
            self.assertIsNotNone(view["table"])
            state = costs, frozenset(), frozenset()
            for _ in range(3):
                with self.subTest(seed=seed):
                    state = self.change_and_compare(chance, *state)

    def text_of(self, costs):
        titles = ["who", *(f"job{thing}" for thing in range(len(costs[0])))]
        return "\n".join(",".join(row) for row in [titles, *([f"p{person}", *row] for person, row in enumerate(costs))]) + "\n"

    def change_and_compare(self, chance, costs, fixed, forbidden):
        """The costs and the pairs after some changes, of which the page is told, and the command sees the whole; as they were before where
        both refuse them."""
        pairs = [(person, thing) for person in range(len(costs)) for thing in range(len(costs[0]))]
        told = {name: chance.sample(pairs, min(chance.randint(0, 2), len(pairs))) for name in ("fix", "forbid", "free")}
        changed = [(pair, chance.choice(["", str(chance.randint(10, 99))])) for pair in chance.sample(pairs, min(2, len(pairs)))]
        now, now_fixed = [list(row) for row in costs], (fixed | set(told["fix"])) - set(told["forbid"]) - set(told["free"])
        now_forbidden = (forbidden | set(told["forbid"])) - set(told["fix"]) - set(told["free"])
        for (person, thing), text in changed:
            now[person][thing] = text
        answer = self.page.plan(**told, costs=[[*pair, text] for pair, text in changed])
        table = self.write("table.csv", self.text_of(now))
        words = [f"--{option}=p{person}=job{thing}" for option, wanted in (("fix", now_fixed), ("forbid", now_forbidden)) for person, thing in sorted(wanted)]
        status, _, said = called("plan", [table, "--matrix", *words, "--quiet"])
        if status == 2:
            self.assertEqual((answer.status, f"plan: {answer.told()['fault']}\n"), (422, said))
            return costs, fixed, forbidden
        self.assert_same(self.view(answer), self.planned(table, "--matrix", *words))
        return now, now_fixed, now_forbidden

    def test_refused_changes(self):
        """What is refused changes nothing."""
        self.serve(EXAMPLES / "crew.csv")
        self.view(self.page.send("/options", {}))
        before = self.view(self.page.plan())
        for edits, sentence in [
            ({"fix": [[0, 3]]}, "--fix Ada=survey: the table has no cost for this pair; write one into it"),
            ({"fix": [[0, 0], [1, 0]]}, "--fix Ben=pump: the object is fixed already, by --fix Ada=pump; leave one of them out"),
            ({"costs": [[0, 0, "1.5"]]}, "`Ada` and `pump`: `1.5` has more decimals than the 0 that are kept; say more of them by --decimals"),
            ({"costs": [[0, 0, "soon"]]}, "`Ada` and `pump`: `soon` is no number; write digits alone"),
            ({"costs": [[0, 0, "9999999999"]]}, "`Ada` and `pump`: `9999999999` is out of range: with 0 decimals the most is 1000000000; count in greater units"),
        ]:
            answer = self.page.plan(**edits)
            self.assertEqual((answer.status, answer.told()["fault"]), (422, sentence))
        for edits in ({"fix": [[0, 4]]}, {"fix": [[-1, 0]]}, {"fix": [[True]]}, {"costs": [[4, 0, "1"]]}):
            self.assertEqual(self.page.plan(**edits).status, 400)
        self.assertEqual(self.view(self.page.ask("/view")), before)
        answer = self.page.send("/options", {"leave_free": "dear"})
        self.assertEqual(self.view(self.page.ask("/view"))["options"]["leave_free"], "dear")
        self.assertEqual(answer.status, 200)

    def test_changes_stay_with_their_names(self):
        """Other options read the table anew, and what was changed stays; another table begins anew."""
        self.serve()
        self.page.take("crew.csv", (EXAMPLES / "crew.csv").read_bytes())
        self.view(self.page.plan(fix=[[0, 2]], costs=[[0, 0, "7"]]))
        view = self.view(self.page.send("/options", {"maximise": True}))
        self.assertEqual((view["table"]["fixed"], view["table"]["changed"]), ([[0, 2, "Ada", "wiring"]], [[0, 0, "Ada", "pump", "7"]]))
        self.assertEqual(self.view(self.page.ask("/cells?row=0&column=0&rows=1&columns=2")), {"row": 0, "column": 0, "persons": ["Ada"], "objects": ["pump", "roof"], "cells": [["7", "65"]], "own": [["40", "65"]]})
        view = self.view(self.page.take("other.csv", "a,x,1\n"))
        self.assertEqual((view["table"]["fixed"], view["table"]["changed"], view["answer"]), ([], [], None))

    def test_wishes_of_the_command(self):
        """They can be taken back on the page."""
        self.serve(EXAMPLES / "crew.csv", "--fix", "Ada=wiring", "--forbid", "Dan=pump")
        view = self.view(self.page.send("/options", {}))
        self.assertEqual((view["table"]["fixed"], view["table"]["forbidden"]), ([[0, 2, "Ada", "wiring"]], [[3, 0, "Dan", "pump"]]))
        self.assert_same(self.view(self.page.plan()), self.planned(EXAMPLES / "crew.csv", "--fix", "Ada=wiring", "--forbid", "Dan=pump"))
        self.assert_same(self.view(self.page.plan(free=[[0, 2], [3, 0]])), self.planned(EXAMPLES / "crew.csv"))

    def test_files_of_the_machine(self):
        """No option of the page reaches one, but those that the command has named."""
        self.write("capacities.csv", "Ada,2\nBen,2\n")
        self.serve(EXAMPLES / "crew.csv", "--capacity", "capacities.csv")
        self.view(self.page.send("/options", {"capacity": "capacities.csv"}))
        self.assertEqual(self.page.plan().status, 200)
        for told in ({"capacity": "/etc/passwd"}, {"capacity": str(EXAMPLES / "tours.csv")}, {"need": "-"}, {"capacity": "./capacities.csv"}):
            self.view(self.page.send("/options", told))
            self.assertIn("no such file", self.page.plan().told()["fault"], told)
        self.assertEqual(self.page.send("/options", {"program": "/bin/false", "output": "x", "file": "/etc/passwd"}).status, 200)
        self.assertEqual(self.view(self.page.ask("/view"))["file"], str(EXAMPLES / "crew.csv"))

    def test_kept_plan(self):
        self.serve(EXAMPLES / "crew.csv")
        self.view(self.page.send("/options", {}))
        self.assertIn("there is no plan yet", self.page.send("/options", {"keep": True, "change_cost": "2"}).told()["fault"])
        self.view(self.page.plan(fix=[[0, 2]]))
        self.assertIn("--change-cost says what each change costs", self.page.send("/options", {"keep": True}).told()["fault"])
        self.view(self.page.send("/options", {"keep": True, "change_cost": "2"}))
        self.assertEqual(self.page.send("/options", {"range": "Z9:Z10"}).status, 422)
        answer = self.view(self.page.plan(free=[[0, 2]]))["answer"]
        self.assertEqual(answer["rows"][:2], [["fitter", "object", "cost", "before"], ["Ada", "pump", "40", "wiring"]])
        self.assertIn("total 149 with 2 changes at 2 each", answer["summary"])

        self.view(self.page.send("/options", {}))
        self.write("yesterday.csv", "Ada,wiring,30\n")
        self.serve(EXAMPLES / "crew.csv", "--keep", "yesterday.csv", "--change-cost", "50")
        view = self.view(self.page.send("/options", {"keep": True, "change_cost": "50"}))
        self.assertTrue(view["options"]["keep"])
        self.assertEqual(self.view(self.page.plan())["answer"]["rows"][1], ["Ada", "wiring", "30", ""])

    def test_names_of_files(self):
        self.serve()
        for name, told in [("../../etc/passwd", "passwd"), ("C:\\tables\\crew.csv", "crew.csv"), ("-", "table"), ("", "table"), ("a\nb.csv", "a b.csv"), ("crew.csv:x", "crew.csv:x")]:
            self.assertEqual(self.view(self.page.take(name, "a,x,1\n"))["file"], told)

    def test_search_that_is_stopped(self):
        self.serve("--bids", "1")
        self.view(self.page.take("t.csv", "a,x,1\na,y,2\nb,x,1\n"))
        answer = self.view(self.page.plan())["answer"]
        self.assertEqual((answer["kind"], answer["status"]), ("bracket", 4))
        self.assertIn("The search was stopped early: this plan is at most", answer["sentence"])

    def test_gap_of_two_hyphens(self):
        self.serve()
        self.view(self.page.send("/options", {"gap": "--\nn/a"}))
        view = self.view(self.page.take("t.csv", "who,x,y,z\na,1,n/a,--\nb,2,3,1\n"))
        self.assertEqual((view["options"]["gap"], view["table"]["pairs"]), ("--\nn/a", 4))

    def test_find(self):
        self.serve()
        self.view(self.page.take("t.csv", "".join(f"Person {number},Job {number},1\n" for number in range(30))))
        self.assertEqual(self.view(self.page.ask("/find?name=SON+12")), {"persons": [[12, "Person 12"]], "objects": []})
        self.assertEqual(len(self.view(self.page.ask("/find?name=job"))["objects"]), 10)
