"""Jobs that want several persons, can't go together, or may be left undone at a price; and many more persons than jobs."""
import itertools
import json
import os
import random
import unittest
from unittest import mock

import compare_demands
from calls import ToolTest, called, has_program
from sigdorf_tools import branching
from sigdorf_tools.networks import Demand, Network
from sigdorf_tools.problems import Arcs

SHIFTS = "nurse,early,late,night\nAda,1,2,3\nBen,5,1,2\nCleo,3,3,9\nDan,4,4,1\n"


@has_program()
class AllPlans(unittest.TestCase):
    def test_against_all_plans(self):
        """A short run of compare_demands.py, which takes more by hand."""
        self.assertEqual(compare_demands.faults_of_run(seed=3, count=200), [])


class Networks(unittest.TestCase):
    def test_count(self):
        """The arcs are as many as are counted, and the lines name persons and objects that there are."""
        draw = random.Random(5)
        for _ in range(200):
            persons, objects = draw.randrange(1, 5), draw.randrange(1, 5)
            arcs = [Arcs(things := [thing for thing in range(1, objects + 1) if draw.random() < 0.8], "\n".join(["7"] * len(things))) for _ in range(persons)]
            owners = [person for person in range(persons) for _ in range(draw.randrange(1, 3))]
            demand = Demand([draw.randrange(3) for _ in range(objects)], [draw.randrange(3) for _ in range(objects)])
            free = draw.choice([[], [draw.choice([None, 4]) for _ in owners]])
            able = [thing for thing in arcs[0].objects if demand.needs[thing - 1]]
            fixed = [(0, able[0])] if able and draw.random() < 0.3 else []
            free = [None, *free[1:]] if free and fixed else free
            network = Network(arcs, owners, free, fixed, demand)
            rows = list(network.rows())
            self.assertEqual((len(rows), sum(map(len, rows))), (network.persons(), network.count()))
            self.assertTrue(all(1 <= thing <= network.all_objects() for row in rows for thing, _ in row))


@has_program()
class Demands(ToolTest):
    def planned(self, *words, status=0, table=SHIFTS):
        self.write("table.csv", table)
        answer = self.call("plan", "table.csv", "--quiet", *words)
        self.assertEqual(answer[0], status, answer)
        return answer[1].splitlines()[1:] if not status else answer[1].splitlines()

    def test_needs(self):
        """Early 2, late 1, night 2, of whom four nurses fill four: Ada and Cleo 1 + 3, Ben 1, Dan 1."""
        self.write("needs.csv", "shift,nurses\nearly,2\nlate,1\nnight,2\n")
        self.assertEqual(self.planned("--need", "needs.csv"), ["Ada,early,1", "Ben,late,1", "Cleo,early,3", "Dan,night,1", ",night,", "total,,6"])
        # Nobody has both places of one shift.
        rows = self.planned("--need", "2", "--capacity", "2")
        self.assertEqual(len({tuple(row.split(",")[:2]) for row in rows}), len(rows))
        self.assertEqual(rows[-1], "total,,10")
        self.write("needs.csv", "early,0\nnight,4\n")
        self.assertEqual(self.planned("--need", "needs.csv", "--fix", "Ada=late")[-2:], [",night,", "total,,14"])

    def test_needs_in_the_table(self):
        """As a row of a matrix, and as a column of a list of pairs."""
        best = ["Ada,early,1", "Ben,late,1", "Cleo,early,3", "Dan,night,1", ",night,", "total,,6"]
        rows = SHIFTS.splitlines()
        table = "\n".join([*rows[:2], "needed,2,,2", *rows[2:], ""])
        self.assertEqual(self.planned("--need-row", "needed", table=table), best)
        needs = {"early": "2", "late": "", "night": "2"}
        pairs = [f"{row.split(',')[0]},{shift},{cost},{needs[shift]}\n" for row in rows[1:] for shift, cost in zip(needs, row.split(",")[1:])]
        self.assertEqual(self.planned("--need-column", "wanted", table=f"nurse,shift,cost,wanted\n{''.join(pairs)}"), best)
        self.write("table.csv", table.replace("needed,2", "needed,few"))
        self.assert_fault(self.call("plan", "table.csv", "--need-row", "needed"), "table.csv, line 3, column 2", "`few`", "how many persons")
        self.assert_fault(self.call("plan", "table.csv", "--need-row", "wanted"), "--need-row wanted", "no row")
        self.assert_fault(self.call("plan", "table.csv", "--need-row", "needed", "--need", "2"), "--need and --need-row", "leave one of them out")
        self.assert_fault(self.call("plan", "table.csv", "--need-row", "needed", "--second"), "--second", "--need-row")

    def test_objects_apart(self):
        """One shift of a day for each: by days, and by rows of shifts."""
        table = "who,Mon early,Mon late,Tue early\nAda,1,1,1\nBen,5,6,7\n"
        self.assertEqual(self.planned("--capacity", "3", table=table), ["Ada,Mon early,1", "Ada,Mon late,1", "Ada,Tue early,1", "Ben,,", "total,,3"])
        best = ["Ada,Mon late,1", "Ada,Tue early,1", "Ben,Mon early,5", "total,,7"]
        for rows in ("shift,day\nMon early,Mon\nMon late,Mon\nTue early,Tue\n", "Mon early,Mon late\n"):
            self.write("days.csv", rows)
            self.assertEqual(self.planned("--capacity", "3", "--apart", "days.csv", table=table), best)
        self.assertEqual(self.planned("--capacity", "3", "--apart-row", "day", table=f"{table}day,Mon,Mon,\n"), best)
        rows = [row.split(",") for row in table.splitlines()]
        pairs = "".join(f"{who},{shift},{cost},{shift[:3]}\n" for who, *costs in rows[1:] for shift, cost in zip(rows[0][1:], costs))
        self.assertEqual(self.planned("--capacity", "3", "--apart-column", "day", table=f"who,shift,min,day\n{pairs}"), best)
        self.write("table.csv", table)
        said = self.call("plan", "table.csv", "--apart", "days.csv", "--quiet")[2]
        self.assertEqual(said, "plan: note: --apart changes nothing, since nobody may take more than one object; say --capacity too\n")

    def test_undone_in_the_table(self):
        """As a row of a matrix and as a column of a list of pairs; an object without a price has to be done."""
        best = ["Ada,pump,40", "Ben,wiring,20", ",roof,50", "total,,110"]
        self.assertEqual(self.planned("--undone-row", "undone", table="who,pump,roof,wiring\nAda,40,65,30\nBen,35,90,20\nundone,100,50,\n"), best)
        pairs = "who,what,min,undone\nAda,pump,40,100\nAda,roof,65,50\nAda,wiring,30,\nBen,pump,35,100\nBen,roof,90,50\nBen,wiring,20,\n"
        self.assertEqual(self.planned("--undone-column", "undone", table=pairs), best)
        table = "who,x,y,z\nAda,4,,\nBen,5,,\nundone,7,7,\n"
        lines = self.planned("--undone-row", "undone", table=table, status=3)
        self.assertEqual(lines, ["No plan within the wishes gives every object to somebody: z can go to no person.", "object,z"])
        self.assert_fault(self.call("plan", "table.csv", "--undone-row", "undone", "--undone", "3"), "--undone and --undone-row", "leave one of them out")
        self.write("table.csv", table.replace("undone,7,7", "undone,7,few"))
        self.assert_fault(self.call("plan", "table.csv", "--undone-row", "undone"), "table.csv, line 4, column 3", "`few`")

    def test_undone(self):
        self.assertEqual(self.planned("--undone", "2"), ["Ada,early,1", "Ben,late,1", "Dan,night,1", "Cleo,,", "total,,3"])
        self.assertEqual(self.planned("--undone", "0"), ["Ada,,", "Ben,,", "Cleo,,", "Dan,,", ",early,0", ",late,0", ",night,0", "total,,0"])
        told = json.loads("\n".join(["{", *self.planned("--undone", "2.5", "--decimals", "1", "--need", "2", "--json")]))
        self.assertEqual((told["total"], told["wishes"]), (10.5, ["--need 2", "--undone 2.5"]))

    def test_no_plan(self):
        table = "who,x,y\nAda,1,\nBen,1,\nCleo,1,2\n"
        self.write("needs.csv", "x,1\ny,2\n")
        lines = self.planned("--need", "needs.csv", "--matrix", status=3, table=table)
        self.assertIn("Ada and Ben may take x, and nothing else", lines[0])
        self.assertEqual(lines[1:], ["person,Ada", "person,Ben", "object,x"])
        lines = self.planned("--need", "1", "--matrix", "--forbid", "Cleo=y", status=3, table=table)
        self.assertIn("gives every object to somebody: y can go to", lines[0])

    def test_sides_are_swapped(self):
        """Many more persons than objects: each object goes to whoever is cheapest for it, since these are different persons."""
        draw, persons, objects = random.Random(2), 3_000, 1_000
        rows = [f"p{person},x{person % objects},{draw.randrange(5, 90) if person >= objects else person % 5}\n" for person in range(persons)]
        self.write("table.csv", "".join(rows))
        status, output, said = self.call("plan", "table.csv", "--json")
        told = json.loads(output)
        self.assertEqual((status, told["total"], len(told["pairs"]), len(told["free_persons"])), (0, 2 * objects, objects, persons - objects))
        self.assertTrue(all(pair["person"][1:] == pair["object"][1:] for pair in told["pairs"]))
        self.assertIn("plan: 1000 pairs, total 2000, the least of all; checked by", said)

    def test_page_and_notes(self):
        status, _, said = self.call("plan", self.write("table.csv", SHIFTS), "--need", "2", "--html", "-o", "page.html")
        self.assertEqual(status, 0, said)
        page = self.read("page.html")
        self.assertIn("<li>--need 2</li>", page)
        self.assertNotIn("<h2>Prices</h2>", page)

    def test_faults(self):
        self.write("table.csv", SHIFTS)
        self.write("unknown.csv", "early,2\nlat,1\n")
        self.write("few.csv", "early,few\n")
        self.write("days.csv", "early,late\nlate,night\n")
        self.write("mixed.csv", "early,late\nlate,Mon\n")
        self.write("hours.csv", "early,6:00,14:00\nlate,12:00,2pm\n")
        self.write("back.csv", "early,2026-11-28 14:00,2026-11-28 06:00\n")
        self.write("half.csv", "early,28.11.2026 14:00,6:00\n")
        self.write("late.csv", "lat,Mon\nearly,Mon\n")
        self.write("twice.csv", "early,Mon\nearly,Tue\n")
        for words, *parts in [
            (["--need", "unknown.csv"], "unknown.csv, line 2, column 1", "no object `lat`", "`late`"),
            (["--need", "few.csv"], "few.csv, line 1, column 2", "`few`", "how many persons"),
            (["--need", "nosuch.csv"], "--need nosuch.csv", "no such file"),
            (["--need", "0"], "--need", "above 0"),
            (["--need", "2", "--why", "Ada"], "--why", "--need"),
            (["--need", "2", "--second"], "--second", "leave one of them out"),
            (["--undone", "1", "--fair"], "--fair", "--undone"),
            (["--undone", "x"], "--undone x", "no number"),
            (["--apart", "hours.csv"], "hours.csv, line 2, column 3", "`2pm` is no time", "14:30"),
            (["--apart", "back.csv"], "back.csv, line 1, column 3", "`2026-11-28 06:00` is no later than the begin"),
            (["--apart", "half.csv"], "half.csv, line 1, column 3", "`6:00` has no day, and the begin has one"),
            (["--apart", "late.csv"], "late.csv, line 1, column 1", "no object `lat`", "`late`"),
            (["--apart", "days.csv", "--capacity", "2", "--fix", "Ada=early", "--fix", "Ada=late"], "--fix Ada=late", "can't go with that of --fix Ada=early"),
            (["--apart", "twice.csv"], "twice.csv, line 2, column 1", "`early` is there twice"),
            (["--apart", "mixed.csv"], "mixed.csv, line 2, column 2", "no object `Mon`"),
            (["--fix", "Ada=early", "--fix", "Ben=early", "--need", "1"], "--fix Ben=early", "wants 1"),
            (["--fix", "Ada=early", "--fix", "Ada=early", "--need", "2", "--capacity", "2"], "--fix Ada=early"),
        ]:
            with self.subTest(words=words):
                self.assert_fault(self.call("plan", "table.csv", *words), *parts)


@has_program()
class Apart(ToolTest):
    """Objects that are apart in no groups, as shifts that overlap: the least plan by a look at all of them, and what is said of it."""

    def planned(self, costs, apart, *words):
        """The answer as JSON for a table of costs, by persons and objects, and rows of objects that are apart."""
        rows = [["who", *(f"x{thing}" for thing in range(len(costs[0])))], *([f"p{person}", *map(str, row)] for person, row in enumerate(costs))]
        self.write("table.csv", "".join(",".join(row) + "\n" for row in rows))
        self.write("apart.csv", "".join(",".join(row) + "\n" for row in apart))
        return called("plan", [self.folder / "table.csv", "--apart", self.folder / "apart.csv", "--json", *words])

    def least(self, costs, clashes, capacity, undone):
        """The least total of all plans, or None."""
        takers = [*range(len(costs)), *([] if undone is None else [None])]
        totals = []
        for taken in itertools.product(takers, repeat=len(costs[0])):
            mine = [{thing for thing, person in enumerate(taken) if person == other} for other in range(len(costs))]
            if all(len(things) <= capacity for things in mine) and not any(clash <= things for clash in clashes for things in mine):
                totals.append(sum(undone if person is None else costs[person][thing] for thing, person in enumerate(taken)))
        return min(totals, default=None)

    def test_all_plans(self):
        draw, parts = random.Random(4), []
        for number in range(24):
            persons, objects = 3, 5
            costs = [[draw.randrange(30) for _ in range(objects)] for _ in range(persons)]
            begins = [draw.randrange(24) for _ in range(objects)]
            spans = [(begin, begin + draw.randrange(3, 9)) for begin in begins]
            clashes = [{one, other} for one, other in itertools.combinations(range(objects), 2) if spans[one][0] < spans[other][1] and spans[other][0] < spans[one][1]]
            undone = draw.choice([None, 12])
            rows = [[f"x{thing}", f"{begin}:00", f"{end}:00"] for thing, (begin, end) in enumerate(spans)]
            status, output, said = self.planned(costs, rows, "--capacity", "3", *([] if undone is None else ["--undone", str(undone)]))
            least = self.least(costs, clashes, 3, undone)
            with self.subTest(number, costs=costs, spans=spans):
                self.assertEqual(status, 3 if least is None else 0, said)
                told = json.loads(output)
                self.assertEqual(told.get("total"), least)
                parts.append(told.get("assignments", 1))
        self.assertGreaterEqual(sum(count > 1 for count in parts), 3)

    def test_roster(self):
        """A week of shifts with rest between them: the plan keeps to all wishes, whether the gap is closed or not, and with a limit of time."""
        draw = random.Random(7)
        costs, apart = [[draw.randrange(60) for _ in range(12)] for _ in range(9)], []
        for day in range(4):
            early, late, night = (3 * day + shift for shift in range(3))
            apart += [(early, late, night), *([(late, early + 3), (night, early + 3), (night, late + 3)] if day < 3 else [])]
        clashes = [set(pair) for row in apart for pair in itertools.combinations(row, 2)]
        rows = [[f"x{thing}" for thing in row] for row in apart]
        for words in ([], ["--seconds", "1"], ["--undone", "25", "--leave-free", "40"]):
            status, output, said = self.planned(costs, rows, "--capacity", "3", "--need", "2", *words)
            told = json.loads(output)
            self.assertIn(status, (0, 4), said)
            self.assertLessEqual(told.get("bound", told["total"]), told["total"])
            mine = {}
            for pair in told["pairs"]:
                mine.setdefault(pair["person"], []).append(int(pair["object"][1:]))
            self.assertTrue(all(len(things) <= 3 and not any(clash <= set(things) for clash in clashes) for things in mine.values()), output)
            counts = [sum(thing in things for things in mine.values()) for thing in range(12)]
            self.assertTrue(all(count == 2 for count in counts) if "--undone" not in words else max(counts) <= 2, counts)
            paid = sum(costs[int(pair["person"][1:])][int(pair["object"][1:])] for pair in told["pairs"])
            paid += 25 * sum(2 - count for count in counts) + 40 * (9 - len(mine)) if "--undone" in words else 0
            self.assertEqual(told["total"], paid)

    COSTS = [[1, 1, 1], [4, 5, 9]]

    def test_what_is_proved(self):
        """Who has the middle one has no other: 5 + 1 + 1 or 1 + 4 + 9. Without the pairs that are in no group the least is 6 or less."""
        status, output, said = self.planned(self.COSTS, [["x0", "x1"], ["x1", "x2"]], "--capacity", "2")
        told = json.loads(output)
        self.assertEqual((status, told["answer"], told["total"]), (0, "best", 7))
        self.assertGreater(told["assignments"], 1)
        proved = f" {told['assignments']} assignments show it: each of them is proved, and that they leave no plan out is not."
        self.assertEqual(told["sentence"], f"A best plan within the wishes: the least total that they allow is 7.{proved}")
        self.assertIn(f"the least within the wishes as {told['assignments']} assignments show; each one checked by the proved checker", said)
        # Groups are an assignment problem, and its answer is proved whole.
        told = json.loads(self.planned(self.COSTS, [["x0", "x1", "x2"]], "--capacity", "2", "--undone", "20")[1])
        self.assertNotIn("assignments", told)

    def test_search_that_is_stopped(self):
        """The bound stays below the least, and the plan above; where no place may stay open, there may be no plan yet."""
        chain, seen = [["x0", "x1"], ["x1", "x2"]], []
        for most in (1, 2, 3, 4, 9):
            with mock.patch.object(branching, "MOST", most):
                status, output, _ = self.planned(self.COSTS, chain, "--capacity", "2", "--undone", "50")
                told = json.loads(output)
                self.assertTrue(told.get("bound", 7) <= 7 <= told["total"], output)
                seen.append((status, told["total"]))
        self.assertEqual((seen[0][0], seen[-1]), (4, (0, 7)))
        with mock.patch.object(branching, "MOST", 1):
            self.assert_fault(self.planned(self.COSTS, chain, "--capacity", "2"), "table.csv: --apart: no plan was found by 1 assignment, and there may be one", "say --undone or --leave-free")

    def test_no_plan(self):
        """A ring of five, each apart from the next one, can't be parted between two persons; without the pairs that are in no
        group it could."""
        ring = [[f"x{thing}", f"x{(thing + 1) % 5}"] for thing in range(5)]
        status, output, _ = self.planned([[1] * 5, [2] * 5], ring, "--capacity", "3")
        told = json.loads(output)
        self.assertEqual((status, told["answer"], told["persons"], told["objects"]), (3, "no plan", [], []))
        self.assertIn("No plan within the wishes keeps all objects apart that can't go together: with --undone or --leave-free something may stay open.", told["sentence"])
        self.assertRegex(told["sentence"], "[0-9]+ problems without a plan show it: each of them is proved, and that they leave no plan out is not.$")
        status, output, _ = self.planned([[1] * 5, [2] * 5], ring, "--capacity", "3", "--undone", "7")
        # Two of the first and two of the second person, and one stays open.
        self.assertEqual((status, json.loads(output)["total"]), (0, 2 * 1 + 2 * 2 + 7))


@has_program()
class Keeping(ToolTest):
    CREW = "fitter,pump,roof,wiring\nAda,40,65,30\nBen,35,,20\nCleo,,45,60\n"

    def kept(self, cost, *words, old="who,what,cost\nAda,wiring,1\nBen,pump,1\n,roof,\ntotal,,2\n"):
        self.write("table.csv", self.CREW)
        self.write("old.csv", old)
        return self.call("plan", "table.csv", "--keep", "old.csv", "--change-cost", cost, *words)

    def test_changes(self):
        """The best plan costs 105, and 110 with the two pairs of the old one; Cleo is new in both. So two changes of 3 are worth
        while less than 5, and of 2 they are more."""
        status, output, said = self.kept("3")
        self.assertEqual((status, output), (0, "fitter,object,cost,before\nAda,wiring,30,\nBen,pump,35,\nCleo,roof,45,\ntotal,,113,\n"), said)
        self.assertIn("plan: 3 pairs, total 113 with 1 change at 3 each, the least within the wishes; ", said)
        output = self.kept("2")[1]
        self.assertEqual(output, "fitter,object,cost,before\nAda,pump,40,wiring\nBen,wiring,20,pump\nCleo,roof,45,\ntotal,,111,\n")

    def test_programs_and_pages(self):
        told = json.loads(self.kept("2", "--json")[1])
        new = [{"person": person, "object": thing} for person, thing in (("Ada", "pump"), ("Ben", "wiring"), ("Cleo", "roof"))]
        self.assertEqual((told["total"], told["change_cost"], told["new_pairs"], told["old_pairs"][0]), (111, 2, new, {"person": "Ada", "object": "wiring"}))
        self.assertEqual(self.kept("2", "--html", "-o", "page.html")[0], 0)
        self.assertIn("<h2>Changes</h2>", self.read("page.html"))
        self.assertNotIn("<h2>Prices</h2>", self.read("page.html"))

    def test_plans_that_were_written(self):
        """What `plan` wrote is read again, as a table and as JSON, and then nothing changes."""
        self.write("table.csv", self.CREW)
        for words, name in ([], "old.csv"), (["--json"], "old.json"):
            self.assertEqual(self.call("plan", "table.csv", "-o", name, *words)[0], 0)
            answer = self.call("plan", "table.csv", "--keep", name, "--change-cost", "7")
            self.assertIn("total 105 with 0 changes at 7 each", answer[2])

    def test_two_columns(self):
        answer = self.kept("3", old="who,what\nAda,wiring\nBen,pump\n")
        self.assertEqual((answer[1].splitlines()[-1], answer[2].count("\n")), ("total,,113,", 1))

    def test_names_that_are_gone(self):
        answer = self.kept("3", old="Ada,wiring,1\nEve,pump,1\nBen,attic,2\n,roof,\n")
        self.assertIn("plan: note: old.csv: 2 pairs of the old plan have a name that the table hasn't, and are left out\n", answer[2])

    def test_faults(self):
        self.assert_fault(self.kept("x"), "--change-cost x", "no number")
        self.assert_fault(self.kept("1.5"), "--change-cost 1.5", "decimals")
        self.assert_fault(self.kept("3", old="a,b,c\n"), "old.csv", "no row has a person and an object of the table")
        self.assert_fault(self.call("plan", "table.csv", "--keep", "old.csv"), "--keep old.csv", "--change-cost")
        self.assert_fault(self.call("plan", "table.csv", "--change-cost", "3"), "--change-cost 3", "--keep")
        self.assert_fault(self.kept("3", "--why", "Ada"), "--why", "--keep")
        self.assert_fault(self.kept("1000000000"), "--change-cost", "out of range")


if __name__ == "__main__":
    os.environ.setdefault("AUCTION", "auction")
    unittest.main()
