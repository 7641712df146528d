"""Wishes for a plan: capacities, who may stay free, fixed and forbidden pairs; the second best plan, the fair one, and why. Small tables are compared with a look at all plans."""
import itertools
import json
import os
import random
import unittest
from unittest import mock

import compare_plans
from calls import ToolTest, has_program
from sigdorf_tools import models
from sigdorf_tools.models import Model
from sigdorf_tools.problems import Arcs
from sigdorf_tools.searches import Plans
from sigdorf_tools.solving import Solver

CREW = "fitter,pump,roof,wiring\nAda,40,65,30\nBen,35,,20\nCleo,,45,60\n"


def plans_of(model):
    """All plans of a model, as sorted pairs of a person and an object, or 0 for one who stays free, each with its costs."""
    choices = []
    for copy, arcs in enumerate(model.arcs):
        free = model.free[copy] if model.free else 0 if copy not in model.fixed else None
        choices.append([*zip(arcs.objects, arcs.costs()), *([(0, free)] if free is not None else [])])
    most = min(len(model.owners), model.objects)
    for picks in itertools.product(*choices):
        things = [thing for thing, _ in picks if thing]
        if len(set(things)) == len(things) and (model.free or len(things) == most):
            pairs = tuple(sorted((owner, thing) for owner, (thing, _) in zip(model.owners, picks) if thing))
            yield pairs, [cost for copy, (thing, cost) in enumerate(picks) if thing or not model.is_spare(copy)]


def drawn_model(draw):
    """A model of few persons and objects: with copies, with and without a price for those who stay free."""
    persons, objects = draw.randrange(1, 4), draw.randrange(1, 5)
    has_free = draw.random() < 0.6
    owners, arcs, free = [], [], []
    for person in range(persons):
        things = [thing for thing in range(1, objects + 1) if draw.random() < 0.8]
        mine = Arcs(things, "\n".join(str(draw.randrange(-5, 20)) for _ in things))
        price = draw.choice([None, 0, 7, 15])
        for copy in range(draw.choice([1, 1, 2])):
            owners.append(person)
            arcs.append(mine)
            free.append(price if copy == 0 else 0)
    return Model(owners, arcs, free if has_free else [], frozenset(), objects)


@has_program()
class AllPlans(ToolTest):
    def test_against_all_plans(self):
        draw, solver = random.Random(11), Solver(os.environ["AUCTION"])
        for _ in range(60):
            model = drawn_model(draw)
            plans, every = Plans(solver, "table"), {}
            for pairs, costs in plans_of(model):
                every[pairs] = min(every.get(pairs, (10**9,)), (sum(costs), costs))
            answer = plans.answer(model)
            with self.subTest(model):
                if not every:
                    self.assertEqual(answer.claim.kind, "infeasible")
                    self.assertIsNone(plans.fair(model)[1])
                    continue
                totals = sorted(total for total, _ in every.values())
                self.assertEqual(answer.claim.cost, totals[0])
                second, _ = plans.second(model, answer)
                self.assertEqual(second and second.claim.cost, totals[1] if len(totals) > 1 else None)
                if model.free or model.dummies() == 0:
                    fair, greatest = plans.fair(model)
                    self.assertEqual((greatest, fair.claim.cost), min((max(costs), total) for total, costs in fairest(model)))


def fairest(model):
    """The costs of all plans; those of copies differ where one of them stays free at a price."""
    return [(sum(costs), costs) for _, costs in plans_of(model)]


@has_program()
class Tables(unittest.TestCase):
    def test_against_all_plans(self):
        """A short run of compare_plans.py, which takes more by hand: wishes and questions as they are said."""
        self.assertEqual(compare_plans.faults_of_run(seed=2, count=15), [])

    def test_without_persons_for_objects(self):
        """The same where these would be too many for the solver."""
        kinds = ["leave-free", "leave-free-column", "second", "fair", "why"]
        with mock.patch.object(models, "MOST_SQUARE", 0):
            self.assertEqual(compare_plans.faults_of_run(seed=2, count=8, kinds=kinds), [])


@has_program()
class Wishes(ToolTest):
    def planned(self, table, *words, status=0):
        self.write("table.csv", table)
        answer = self.call("plan", "table.csv", "--quiet", *words)
        self.assertEqual((answer[0], answer[2]), (status, ""), answer)
        return answer[1].splitlines()

    def test_capacities(self):
        table = "van,tour,km\nA,x,1\nA,y,2\nA,z,3\nB,x,9\nB,y,9\nB,z,9\n"
        self.assertEqual(self.planned(table, "--capacity", "2"), ["van,tour,km", "A,x,1", "A,y,2", "B,z,9", "total,,12"])
        self.write("capacities.csv", "van,tours\nA,3\nB,2\n")
        self.assertEqual(self.planned(table, "--capacity", "capacities.csv"), ["van,tour,km", "A,x,1", "A,y,2", "A,z,3", "B,,", "total,,6"])
        self.write("capacities.csv", "A,0\nB,3\n")
        self.assertEqual(self.planned(table, "--capacity", "capacities.csv")[-2:], ["A,,", "total,,27"])
        columns = "van,tour,km,most\nA,x,1,3\nA,y,2,3\nA,z,3,3\nB,x,9,\nB,y,9,\nB,z,9,\n"
        self.assertEqual(self.planned(columns, "--capacity-column", "most"), ["van,tour,km", "A,x,1", "A,y,2", "A,z,3", "B,,", "total,,6"])
        self.assertEqual(self.planned(",x,most,y\nA,1,2,3\nB,9,1,9\n", "--capacity-column", "most", "--matrix"), ["person,object,cost", "A,x,1", "A,y,3", "B,,", "total,,4"])

    def test_hall_set_of_copies(self):
        lines = self.planned("A,x,1\nB,x,2\nB,y,2\nC,z,1\nC,w,1\nC,v,1\n", "--capacity", "2", status=3)
        told = "No plan within the wishes gives every object to somebody"
        self.assertEqual(lines, [f'"{told}: z, w and v can go to C (2 times), and to nobody else."', "person,C", "object,z", "object,w", "object,v"])

    def test_staying_free(self):
        table = "track,spot,distance\na,x,7.5\nb,x,5\nb,y,30\n"
        self.assertEqual(self.planned(table, "--leave-free", "25", "--decimals", "1"), ["track,spot,distance", "b,x,5.0", "a,,25.0", ",y,", "total,,30.0"])
        self.assertEqual(self.planned(table, "--leave-free", "20", "--decimals", "1")[-1], "total,,25.0")
        rows = "track,spot,distance,ends\na,x,7,\nb,x,5,9\nb,y,30,9\n"
        self.assertEqual(self.planned(rows, "--leave-free-column", "ends"), ["track,spot,distance", "a,x,7", "b,,9", ",y,", "total,,16"])
        self.assertEqual(self.planned("a,x,4\nb,x,6\n", "--leave-free", "1", "--maximise"), ["person,object,cost", "b,x,6", "a,,1", "total,,7"])
        lines = self.planned("p,q,c,f\na,x,1,\nb,x,1,\nc,y,1,3\n", "--leave-free-column", "f", status=3)
        told = "No plan within the wishes gives every person an object: a and b may take x, and nothing else."
        self.assertEqual(lines, [f'"{told}"', "person,a", "person,b", "object,x"])

    def test_who_is_told(self):
        """Nobody is told to take what he may not."""
        self.write("table.csv", "p,q,c,f\na,x,1,0\nb,x,1,\nc,x,1,\n")
        lines = self.planned(self.read("table.csv"), "--leave-free-column", "f", "--forbid", "b=x", "--forbid", "c=x", status=3)
        self.assertEqual(lines[1:], ["person,b", "person,c"])
        lines = self.planned("a,x,1\na,y,2\n", "--capacity", "3", "--forbid", "a=x", "--forbid", "a=y", status=3)
        self.assertIn("can go to", lines[0])
        self.assertEqual(lines[1:], ["object,x", "object,y"])

    def test_fixed_and_forbidden(self):
        self.assertEqual(self.planned(CREW), ["fitter,object,cost", "Ada,pump,40", "Ben,wiring,20", "Cleo,roof,45", "total,,105"])
        self.assertEqual(self.planned(CREW, "--fix", "Ada=wiring")[1:3], ["Ada,wiring,30", "Ben,pump,35"])
        self.assertEqual(self.planned(CREW, "--forbid", "Ben=wiring")[1:3], ["Ada,wiring,30", "Ben,pump,35"])
        self.assertEqual(self.planned("a=b,x,1\na=b,y,2\nc,x,1\nc,y,5\n", "--fix", "a=b=x")[1], "a=b,x,1")
        self.assertEqual(self.planned("a,x,1\nb,x,2\nc,y,3\n", "--fix", "b=x")[1:4], ["b,x,2", "c,y,3", "a,,"])

    def test_second(self):
        self.write("table.csv", CREW)
        status, output, said = self.call("plan", "table.csv", "--second")
        self.assertEqual((status, output), (0, "fitter,object,cost\nAda,wiring,30\nBen,pump,35\nCleo,roof,45\ntotal,,110\n"))
        rank = "the second best, 5 from the best, which has 105"
        self.assertRegex(said, f"^plan: 3 pairs, total 110, {rank}; checked by the proved checker and by ")
        self.write("table.csv", "a,x,1\n")
        self.assert_fault(self.call("plan", "table.csv", "--second"), "table.csv", "no plan but the best one")

    def test_fair(self):
        table = "a,x,1\na,y,6\nb,x,5\nb,y,11\n"
        self.assertEqual(self.planned(table)[-1], "total,,11")
        self.write("table.csv", "a,x,1\na,y,6\nb,x,5\nb,y,9\n")
        status, output, said = self.call("plan", "table.csv", "--fair")
        self.assertEqual((status, output), (0, "person,object,cost\na,y,6\nb,x,5\ntotal,,11\n"))
        rank = "the least of all fair plans: the greatest cost is 6, and no plan has a better one"
        self.assertRegex(said, f"^plan: 2 pairs, total 11, {rank}; checked by ")
        self.assertEqual(self.planned("a,x,1\na,y,6\nb,x,5\nb,y,11\n", "--fair", "--maximise")[-1], "total,,11")
        # Who could take one more is none who stays free.
        self.write("table.csv", "a,x,4\na,y,5\nb,y,6\n")
        said = self.call("plan", "table.csv", "--fair", "--maximise", "--capacity", "2", "--leave-free", "0")[2]
        self.assertIn("the least cost is 4,", said)

    def test_why(self):
        lines = self.planned(CREW, "--why", "Ben")
        self.assertEqual(lines[0], "object,cost,price,together,worse by,who has it")
        own, other = lines[1].split(","), lines[2].split(",")
        self.assertEqual((own[:2], own[4:], other[:2], other[4:]), (["wiring", "20"], ["", "Ben"], ["pump", "35"], ["5", "Ada"]))
        self.assertEqual((int(own[1]) + int(own[2]), int(other[1]) + int(other[2])), (int(own[3]), int(other[3])))
        self.assertLessEqual(int(own[3]), int(other[3]))
        told = "Ben has wiring: at these prices everybody has what is least, with its price."
        more = "Any plan that gives Ben another one of these rows costs at least `worse by` more."
        self.assertEqual(lines[3], f'"{told} {more}"')
        told = json.loads("\n".join(self.planned(CREW.replace(",", ";"), "--why", "Ben", "--json")))
        self.assertEqual(told["objects"][0], dict(object="wiring", cost=20, price=told["objects"][0]["price"], together=told["objects"][0]["together"], holder="Ben"))
        self.assertEqual((told["objects"][1]["object"], told["objects"][1]["worse_by"], told["objects"][1]["holder"]), ("pump", 5, "Ada"))
        self.assertEqual([record.get("worse_by") for record in json.loads("\n".join(self.planned("a,x,1\na,y,2\nb,y,1\n", "--why", "a", "--json")))["objects"]], [None, None])
        self.assert_fault(self.call("plan", "table.csv", "--why", "Ben", "--html"), "--why", "--html")
        self.assertIn("stays free", " ".join(self.planned("a,x,4\nb,x,6\n", "--leave-free", "5", "--why", "b")))

    def test_faults(self):
        self.write("table.csv", CREW)
        self.write("capacities.csv", "Ada,2\nDan,1\n")
        self.write("twice.csv", "Ada,2\nAda,1\n")
        self.write("bad.csv", "Ada,2\nBen,few\n")
        self.write("first.csv", "Ada,few\nBen,2\n")
        self.write("gap.csv", "Ada,\nBen,2\n")
        self.write("rows.csv", "p,q,c,n\na,x,1,2\na,y,1,3\n")
        for words, *parts in [
            (["--fix", "Ada=wirin"], "--fix Ada=wirin", "`wiring`"),
            (["--fix", "Adda=wiring"], "no person `Adda`", "`Ada`"),
            (["--fix", "Ada"], "Ada=roof"),
            (["--fix", "Ben=roof"], "no cost for this pair"),
            (["--fix", "Ada=roof", "--fix", "Cleo=roof"], "--fix Cleo=roof", "fixed already"),
            (["--fix", "Ada=roof", "--fix", "Ada=pump"], "may take 1", "--capacity"),
            (["--fix", "Ada=roof", "--forbid", "Ada=roof"], "--fix Ada=roof", "forbids"),
            (["--forbid", "Ada=rof"], "no object `rof`"),
            (["--capacity", "nosuch.csv"], "nosuch.csv"),
            (["--capacity", "capacities.csv"], "capacities.csv, line 2, column 1", "`Dan`"),
            (["--capacity", "twice.csv"], "twice.csv, line 2, column 1", "twice"),
            (["--capacity", "bad.csv"], "bad.csv, line 2, column 2", "`few`"),
            (["--capacity", "first.csv"], "first.csv, line 1, column 2", "`few`"),
            (["--capacity", "gap.csv"], "gap.csv, line 1, column 2", "a capacity from 0"),
            (["--capacity", "99999"], "--capacity 99999", "10,000"),
            (["--capacity", "0"], "--capacity", "above 0"),
            (["--leave-free", "x"], "--leave-free x", "no number"),
            (["--leave-free", "1.5"], "--leave-free 1.5", "--decimals"),
            (["--leave-free=-1", "--capacity", "2"], "--leave-free -1", "more than one"),
            (["--leave-free", "1", "--leave-free-column", "x"], "leave one of them out"),
            (["--capacity-column", "x"], "table.csv, line 1", "`x`", "`pump`"),
            (["--why", "Adda"], "--why Adda", "`Ada`"),
        ]:
            with self.subTest(words=words):
                self.assert_fault(self.call("plan", "table.csv", *words), *parts)
        self.assert_fault(self.call("plan", "rows.csv", "--capacity-column", "n"), "rows.csv, line 3, column 4", "`2` in another row")
