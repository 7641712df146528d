"""What is said of an answer is true of what was asked: its kind, and of which plans its total is the least, in every
text. And prices, which are the same ones in all of them."""
import json
import re
import unittest

from calls import ROOT, ToolTest, has_program
from sigdorf_tools.claims import Claim
from sigdorf_tools.kinds import Asked, wishes_said
from sigdorf_tools.names import plain_names
from sigdorf_tools.outputs import json_of
from sigdorf_tools.plans import sentence_of, summary_of
from sigdorf_tools.prices import told_prices

CREW = ROOT / "examples" / "crew.csv"
NAMES = plain_names(2, 2)
BEST = Claim("optimal", [(1, 4), (2, 7)], [0, 0], 11, 11, [], [])
STOPPED = BEST._replace(kind="bracket", lower=8)
NO_PLAN = Claim("infeasible", [], [], None, None, [1, 2], [1])
ONE, BOTH = ["the proved checker"], ["the proved checker", "the second checker"]
SECOND, FAIR, WISHES = Asked("second", (), 10), Asked("fair", (), 7), ("--fix 1=1", "--forbid 2=1")
FAIR_BY = "the greatest cost is 7, and no plan has a better one"
FAIR_WITHIN = "the greatest cost is 7, and no plan within the wishes has a better one"
EARLY = "The search was stopped early:"
BLAMED = "every person an object: persons 1 and 2 may take object 1, and nothing else."
# An answer, what was asked for, its sentence, and what the line on standard error says of it, after pairs and total.
TEXTS = [
    (BEST, Asked(), "A best plan: the least total is 11.", "the least of all"),
    (BEST, Asked(wishes=WISHES), "A best plan within the wishes: the least total that they allow is 11.",
     "the least within the wishes"),
    (BEST, SECOND, "The second best plan: its total is 11, and that of the best one is 10.",
     "the second best, 1 from the best, which has 10"),
    (BEST, SECOND._replace(wishes=WISHES),
     "The second best plan within the wishes: its total is 11, and that of the best one is 10.",
     "the second best within the wishes, 1 from the best, which has 10"),
    (BEST, FAIR, f"A fair plan: {FAIR_BY}; of the plans that have it the least total is 11.",
     f"the least of all fair plans: {FAIR_BY}"),
    (BEST, FAIR._replace(wishes=WISHES),
     f"A fair plan within the wishes: {FAIR_WITHIN}; of the plans that have it the least total is 11.",
     f"the least of all fair plans within the wishes: {FAIR_WITHIN}"),
    (STOPPED, Asked(), f"{EARLY} this plan is at most 3 from the best, and no total is below 8.",
     "at most 3 from the best"),
    (STOPPED, Asked(wishes=WISHES),
     f"{EARLY} this plan is at most 3 from the best within the wishes, and no total within the wishes is below 8.",
     "at most 3 from the best within the wishes"),
    (STOPPED, FAIR,
     f"{EARLY} {FAIR_BY}; of the plans that have it this plan is at most 3 from the best, and no total is below 8.",
     f"at most 3 from the best of all fair plans: {FAIR_BY}"),
    (NO_PLAN, Asked(), f"No plan gives {BLAMED}", "there is no plan"),
    (NO_PLAN, Asked(wishes=WISHES), f"No plan within the wishes gives {BLAMED}", "there is no plan within the wishes"),
]


class Texts(unittest.TestCase):
    def test_texts(self):
        for claim, asked, sentence, line in TEXTS:
            with self.subTest(line):
                self.assertEqual(sentence_of(NAMES, claim, asked), sentence)
                line = line if claim is NO_PLAN else f"2 pairs, total 11, {line}"
                said = [summary_of(NAMES, claim, judges, asked) for judges in (ONE, BOTH)]
                one = f"{line}; checked by the proved checker"
                self.assertEqual(said, [one, f"{one} and by a second one"])

    def test_the_greatest_total(self):
        names = NAMES._replace(maximise=True)
        claim = BEST._replace(picks=[(1, -4), (2, -7)], lower=-11, cost=-11)
        self.assertEqual(sentence_of(names, claim, Asked()), "A best plan: the greatest total is 11.")
        asked = Asked("fair", (), -4), Asked("second", (), -12)
        fair, second = (summary_of(names, claim, ONE, each) for each in asked)
        self.assertIn("the greatest of all fair plans: the least cost is 4, and no plan has a better one", fair)
        self.assertIn("the second best, 1 from the best, which has 12", second)

    def test_json(self):
        for claim, asked, sentence, _ in TEXTS:
            told = json.loads(json_of(NAMES, claim, BOTH, asked=asked))
            with self.subTest(sentence):
                answer = {"bracket": "stopped", "infeasible": "no plan"}.get(claim.kind)
                answer = answer or {"best": "best", "second": "second best", "fair": "fair"}[asked.kind]
                wanted = {"answer": answer, "kind": asked.kind, "wishes": list(asked.wishes), "sentence": sentence}
                self.assertEqual({field: told[field] for field in wanted}, wanted)
                self.assertEqual(told["proved_by"], BOTH)
                beside = {field: told[field] for field in ("best_total", "greatest_cost") if field in told}
                wanted = {"second": {"best_total": 10}, "fair": {"greatest_cost": 7}}
                self.assertEqual(beside, wanted.get(asked.kind, {}))

    def test_prices(self):
        """Whole ones, at which everybody has what is least for him; of prices that show a bound alone they are rounded
        down."""
        rows = [(1, [1, 2], [4, 5]), (2, [1, 2], [4, 7])]
        claim = BEST._replace(picks=[(2, 5), (1, 4)], prices=[7, 5], cost=9)
        self.assertEqual(told_prices(rows, claim, 2), [1, 0])
        self.assertEqual(told_prices(rows, STOPPED._replace(prices=[7, 4]), 2), [1, 0])
        self.assertEqual(told_prices(rows, NO_PLAN, 2), [])


@has_program()
class Answers(ToolTest):
    def page(self, *words):
        status, _, said = self.call("plan", CREW, "--html", "-o", "page.html", *words)
        self.assertEqual(status, 0, said)
        return self.read("page.html"), said

    def test_second(self):
        page, said = self.page("--second", "--forbid", "Ada=roof")
        title = "The second best plan within the wishes: its total is 150, and that of the best one is 145."
        for part in (f"<h1>{title}</h1>", f"crew.csv: {title}</title>", "<li>--forbid Ada=roof</li>"):
            self.assertIn(part, page)
        rank = "the second best within the wishes, 5 from the best, which has 145"
        self.assertIn(f"plan: 4 pairs, total 150, {rank}; checked by", said)
        told = json.loads(self.call("plan", CREW, "--second", "--json")[1])
        wanted = {"answer": "second best", "kind": "second", "wishes": [], "total": 150, "best_total": 145}
        self.assertEqual({field: told[field] for field in wanted}, wanted)

    def test_fair(self):
        page, said = self.page("--fair")
        fair = "the greatest cost is [0-9]+, and no plan has a better one"
        self.assertRegex(page, f"<h1>A fair plan: {fair}; of the plans that have it the least total is [0-9]+.</h1>")
        self.assertRegex(said, f"^plan: 4 pairs, total [0-9]+, the least of all fair plans: {fair}; checked by")
        told = json.loads(self.call("plan", CREW, "--fair", "--json")[1])
        self.assertEqual((told["kind"], told["greatest_cost"]), ("fair", max(pair["cost"] for pair in told["pairs"])))

    def test_wishes_are_told(self):
        words = ["--capacity", "2", "--leave-free", "90", "--fix", "Ada=wiring", "--forbid", "Ben=survey"]
        told = json.loads(self.call("plan", CREW, "--json", *words)[1])
        self.assertEqual(told["wishes"], ["--capacity 2", "--leave-free 90", "--fix Ada=wiring", "--forbid Ben=survey"])
        page, _ = self.page(*words)
        for wish in told["wishes"]:
            self.assertIn(f"<li>{wish}</li>", page)

    def test_prices(self):
        """Those of --why are those of the page, and those of its picture."""
        for words in ([], ["--maximise"], ["--leave-free", "50"], ["--capacity", "2"], ["--decimals", "1"]):
            page, _ = self.page(*words)
            row = "<tr><td>([a-z]+)</td><td class=number>([0-9.]+)</td></tr>"
            prices = dict(re.findall(row, page.partition("<h2>Prices</h2>")[2]))
            self.assertEqual(set(prices), {"pump", "roof", "wiring", "survey"})
            for person in ("Ada", "Ben", "Cleo", "Dan"):
                lines = self.call("plan", CREW, "--why", person, *words)[1].splitlines()[1:-1]
                told = {thing: price for thing, _, price, *_ in (line.split(",") for line in lines) if thing in prices}
                with self.subTest(words=words, person=person):
                    self.assertEqual(told, {thing: prices[thing] for thing in told})
                    self.assertTrue(told)
            shown = re.findall('font-size="13" fill="#22262b"[^>]*>([0-9.]+)<', page)
            self.assertEqual(sorted(shown), sorted(prices.values()))

    def test_prices_of_other_plans(self):
        for words in (["--second"], ["--fair"], ["--bids", "1"]):
            status, _, said = self.call("plan", CREW, "--html", "-o", "page.html", *words)
            self.assertIn(status, (0, 4), said)
            self.assertIn("<h2>Prices</h2>", self.read("page.html"))

    def test_what_prices_are_of(self):
        """Those of a second best plan don't show that it is better than the best one."""
        for words, sentence in [
            ([], ""),
            (["--forbid", "Ada=roof"], " of all that the wishes allow"),
            (["--second"], " of all but one thing that the best plan has and this one mustn't"),
            (["--fair"], " of all pairs that cost at most 45"),
        ]:
            page, _ = self.page(*words)
            self.assertIn(f"everybody has what is best for him{sentence}: cost and price together.", page)


class WishesSaid(unittest.TestCase):
    def test_order(self):
        class Words:
            capacity, capacity_column, leave_free, leave_free_column = None, "most", "2.5", None
            fix, forbid = ["a=x"], ["b=x", "b=y"]
        wanted = ("--capacity-column most", "--leave-free 2.5", "--fix a=x", "--forbid b=x", "--forbid b=y")
        self.assertEqual(wishes_said(Words), wanted)


if __name__ == "__main__":
    unittest.main()
