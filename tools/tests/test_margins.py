"""margins: worked rows, what they are measured in, and what has none."""
import os
import subprocess

from calls import ROOT, ToolTest, has_program

EXAMPLES = ROOT / "examples"
CERTIFICATE = "auction 1\noptimal 2 4\nassign 1 1 1\nassign 2 2 3\nprice 1 9\nprice 2 13\n"


class Margins(ToolTest):
    def rows(self, *words):
        status, output, said = self.call("tools/margins", *words)
        self.assertEqual((status, said), (0, ""))
        return output.splitlines()

    def test_two_persons(self):
        """Values are 12 and 19, 21 and 22: the excesses 0 and 7, 0 and 1, of the plan together 1. The other plan has 7 of them, and costs 2 more."""
        self.write("problem", "2\n1 1 1\n1 2 2\n2 1 4\n2 2 3\n")
        self.write("certificate", CERTIFICATE)
        self.assertEqual(self.rows("problem", "certificate"), [
            "person,object,cost,is,margin,holds to",
            "1,1,1,plan,2,3",
            "1,2,2,,2,0",
            "2,1,4,,2,2",
            "2,2,3,plan,2,5",
            "No object is contested: this is the only best plan.",
        ])

    def test_several_best_plans(self):
        """Persons 1 and 2 may change with each other; where person 3 does, it costs 1."""
        self.write("problem", "3\n1 1 0\n1 2 0\n2 1 0\n2 2 0\n2 3 0\n3 2 0\n3 3 -1\n")
        self.write("certificate", "auction 1\noptimal 3 -1\nassign 1 1 0\nassign 2 2 0\nassign 3 3 -1\nprice 1 0\nprice 2 0\nprice 3 4\n")
        self.assertEqual(self.rows("problem", "certificate")[1:], [
            "1,1,0,plan,0,0",
            "1,2,0,contests,0,0",
            "2,1,0,contests,0,0",
            "2,2,0,plan,0,0",
            "2,3,0,,1,-1",
            "3,2,0,,1,-1",
            "3,3,-1,plan,1,0",
            "Contested at these prices: objects 1 and 2.",
        ])

    def test_arcs_of_every_plan_and_of_none(self):
        self.write("problem", "2\n1 1 1\n2 1 4\n2 2 3\n")
        self.write("certificate", "auction 1\noptimal 2 4\nassign 1 1 1\nassign 2 2 3\nprice 1 9\nprice 2 10\n")
        self.assertEqual(self.rows("problem", "certificate")[1:4], ["1,1,1,plan,any,any", "2,1,4,,any,any", "2,2,3,plan,any,any"])

    def test_contested_objects_are_named(self):
        """However many they are, up to a hundred of them."""
        for persons, wanted in [(7, "are 7 objects: 1, 2, 3, 4, 5, 6, 7."), (120, "100, and 20 more in rows with `contests`.")]:
            self.write("problem", f"{persons}\n" + "".join(f"{person} {thing} 0\n" for person in range(1, persons + 1) for thing in range(1, persons + 1)))
            plan = "".join(f"assign {person} {person} 0\n" for person in range(1, persons + 1)) + "".join(f"price {thing} 0\n" for thing in range(1, persons + 1))
            self.write("certificate", f"auction 1\noptimal {persons} 0\n{plan}")
            self.assertTrue(self.rows("problem", "certificate")[-1].strip('"').endswith(wanted))

    def test_the_same_pair_twice(self):
        self.write("problem", "1\n1 1 1\n1 1 4\n")
        self.write("certificate", "auction 1\noptimal 1 1\nassign 1 1 1\nprice 1 0\n")
        self.assertEqual(self.rows("problem", "certificate")[1:3], ["1,1,1,plan,3,4", "1,1,4,,3,1"])

    def test_the_greatest_total(self):
        """Of points, what is in the plan may fall, and what isn't may rise."""
        self.convert("a;x;0,3\na;y;0,2\nb;x;0,1\nb;y;0,2\n", "--maximise", "--decimals", "1")
        self.write("certificate", "auction 1\noptimal 2 -5\nassign 1 1 -3\nassign 2 2 -2\nprice 1 0\nprice 2 0\n")
        self.assertEqual(self.rows("table.arcs", "certificate", "--names", "table.names")[1:5], [
            "a;x;0,3;plan;0,2;0,1",
            "a;y;0,2;;0,2;0,4",
            "b;x;0,1;;0,2;0,3",
            "b;y;0,2;plan;0,2;0,0",
        ])

    def test_objects_left_over(self):
        """Values are 15 and 15, 18 and 27: the only excess is 9, where the second person leaves the first object. The other plan costs 3 more."""
        self.write("problem", "2\n1 1 1\n1 2 5\n2 1 2\n2 3 9\n")
        self.write("certificate", "auction 2\noptimal 2 3 7\nassign 1 2 5\nassign 2 1 2\nprice 1 12\nprice 2 0\nprice 3 0\n")
        self.assertEqual(self.rows("problem", "certificate", "--objects", "3")[1:5], ["1,1,1,,3,-2", "1,2,5,plan,3,8", "2,1,2,plan,3,5", "2,3,9,,3,6"])

    def test_an_object_that_only_one_person_may_take(self):
        """If he leaves it, its price of 3 is lost: less the excess of 1 that is 2, a cost of 1."""
        self.write("problem", "1\n1 1 4\n1 2 5\n")
        self.write("certificate", "auction 2\noptimal 1 2 4\nassign 1 1 4\nprice 1 3\nprice 2 0\n")
        self.assertEqual(self.rows("problem", "certificate", "--objects", "2")[1:3], ["1,1,4,plan,1,5", "1,2,5,,1,4"])

    def test_dummies_are_left_out(self):
        self.convert("a,x,4\nb,x,5\n")
        self.write("certificate", "auction 1\noptimal 2 4\nassign 1 1 4\nassign 2 2 0\nprice 1 0\nprice 2 12\n")
        self.assertEqual(len(self.rows("table.arcs", "certificate", "--names", "table.names")), 4)

    @has_program()
    def test_true_limit(self):
        """A margin is what the prices prove, and no more: up to 16.85 the same plan is a best one, and they prove it up to 11.88."""
        table = (EXAMPLES / "tracks.csv").read_text(encoding="utf-8")
        self.convert(table, "--decimals", "2")
        solve = [os.environ["AUCTION"], "solve", "table.arcs", "--objects", "9"]
        self.write("certificate", subprocess.run(solve, cwd=self.folder, capture_output=True).stdout)
        self.assertIn("track 1,spot 1,7.28,plan,4.60,11.88", self.rows("table.arcs", "certificate", "--names", "table.names"))
        for distance, total in [("16.85", "74.28"), ("16.86", "74.28")]:
            self.write("table.csv", table.replace("track 1,spot 1,7.28", f"track 1,spot 1,{distance}"))
            self.assertIn(f"total,,{total}\n", self.call("plan", "table.csv", "--decimals", "2")[1])

    def test_faults(self):
        crew, certificate, week = EXAMPLES / "crew.arcs", EXAMPLES / "crew.certificate", EXAMPLES / "week_of_vehicles.certificate"
        self.write("problem", "2\n1 1 1\n1 2 2\n2 1 1\n2 2 3\n")
        self.write("bracket", "auction 1\nbracket bids 2 3 4\nassign 1 1 1\nassign 2 2 3\nprice 1 4\nprice 2 0\n")
        self.write("one object", "2\n1 1 1\n2 1 2\n")
        self.write("infeasible", "auction 1\ninfeasible 2 1\nperson 1\nperson 2\nobject 1\n")
        self.convert("a,x,4\n")
        for words, *parts in [
            ([crew, "nosuch"], "nosuch"),
            ([crew, "."], "folder"),
            ([crew, week], "another problem"),
            ([crew, certificate, "--names", "table.names"], "table.names", "another problem"),
            (["problem", "bracket"], "bracket", "a plan and a bound"),
            (["one object", "infeasible"], "infeasible", "has none"),
        ]:
            with self.subTest(words=words):
                self.assert_fault(self.call("tools/margins", *words), *parts)
