#!/usr/bin/env python3
"""Compares what `plan` and `margins` say of small tables with a look at all plans: each wish and each question in turn, with others beside it.

    tools/tests/compare_plans.py --program PATH [--seed S] [--count N] [--kind KIND ..]

For each kind of wish or question come N tables, each of the seed, the kind and its number. The last line is `N passed, M failed`; a table whose answer differs is shown.
"""
import argparse
import contextlib
import csv
import io
import itertools
import os
import pathlib
import random
import re
import subprocess
import sys
import tempfile
from typing import NamedTuple

sys.dont_write_bytecode = True
sys.path.append(str(pathlib.Path(__file__).resolve().parents[1]))
from calls import called, told  # noqa: E402
from sigdorf_tools.amounts import amount_of  # noqa: E402

KINDS = ["plain", "capacity", "capacity-column", "leave-free", "leave-free-column", "fix", "forbid", "second", "fair", "why", "margins"]
QUESTIONS = {"second", "fair", "why"}
WISHES = ["capacity", "leave-free", "fix", "forbid"]
JUDGES = "checked by the proved checker and by a second one"


class Case(NamedTuple):
    """A table, costs by person and object in smallest units, and what is asked of its plan: capacities, what it costs to stay free (None where somebody mustn't, and no list where nobody may),
    fixed and forbidden pairs, and whether the greatest total is wanted."""

    persons: list
    objects: list
    costs: dict
    decimals: int
    capacities: list
    free: list | None
    fixed: set
    forbidden: set
    maximise: bool

    def amount(self, units):
        return amount_of(units, self.decimals, ".")

    def sign(self):
        return -1 if self.maximise else 1


class Plan(NamedTuple):
    """The pairs of a plan, its total on a scale where the least is best, and all costs that count in it."""

    pairs: frozenset
    total: int
    costs: tuple


def plans_of(case):
    """All plans of a case, with who takes each object, or nobody."""
    persons, places = range(len(case.persons)), min(sum(case.capacities), len(case.objects))
    takers = [[None, *(person for person in persons if (person, thing) in case.costs and (person, thing) not in case.forbidden)] for thing in range(len(case.objects))]
    for taken in itertools.product(*takers):
        pairs = frozenset((person, thing) for thing, person in enumerate(taken) if person is not None)
        counts = [taken.count(person) for person in persons]
        if any(count > most for count, most in zip(counts, case.capacities)) or not case.fixed <= pairs:
            continue
        idle = [person for person in persons if not counts[person] and case.capacities[person]]
        if len(pairs) < places if case.free is None else any(case.free[person] is None for person in idle):
            continue
        prices = [case.free[person] for person in idle] if case.free else []
        costs = tuple(case.sign() * cost for cost in [*(case.costs[pair] for pair in pairs), *prices])
        yield Plan(pairs, sum(costs), costs)


def drawn(draw, kind):
    """A case in which the kind matters."""
    persons, objects = draw.randrange(1, 5), draw.randrange(1, 5)
    decimals, maximise = draw.choice([0, 0, 1, 2]), draw.random() < 0.3
    share, most = draw.choice([0.6, 0.9, 1]), draw.choice([4, 30])
    costs = {(person, thing): draw.randrange(-3, most) for person in range(persons) for thing in range(objects) if draw.random() < share}
    wishes = {kind.removesuffix("-column")} | {wish for wish in WISHES if draw.random() < 0.2}
    wishes = set() if kind in ("plain", "margins") else wishes
    capacities = [draw.choice([0, 1, 1, 2, 3]) if kind != "capacity" else 2 for _ in range(persons)] if "capacity" in wishes else [1] * persons
    if not any(capacities):
        capacities[0] = 1
    free = None
    if "leave-free" in wishes:
        prices = [draw.randrange(0, most), None] if kind == "leave-free-column" else [draw.randrange(0, most)]
        free = [draw.choice(prices) for _ in range(persons)] if kind == "leave-free-column" else prices * persons
        # Who may take more than one object isn't paid for staying free.
        free = [0 if price and maximise and max(capacities) > 1 else price for price in free]
    pairs = list(costs)
    draw.shuffle(pairs)
    fixed, left = set(), list(capacities)
    for person, thing in pairs[: draw.randrange(1, 3)] if "fix" in wishes else ():
        if left[person] and thing not in {other for _, other in fixed}:
            fixed.add((person, thing))
            left[person] -= 1
    forbidden = {pair for pair in pairs[: draw.randrange(1, 4)] if pair not in fixed} if "forbid" in wishes else set()
    # Prices that nobody has are no wish.
    free = None if free and all(price is None for price in free) else free
    return Case([f"p{n}" for n in range(persons)], [f"x{n}" for n in range(objects)], costs, decimals, capacities, free, fixed, forbidden, maximise)


def table_of(case, draw, columns):
    """The text of the table, with more columns that say something of persons."""
    def told(title, value):
        return "" if value is None else case.amount(value) if title == "ends" else str(value)
    titles, extra = [title for title, _ in columns], [[told(title, value[person]) for title, value in columns] for person in range(len(case.persons))]
    are_all_there = {person for person, _ in case.costs} == set(range(len(case.persons))) and {thing for _, thing in case.costs} == set(range(len(case.objects)))
    if are_all_there and draw.random() < 0.5:
        pairs = ([case.persons[person], case.objects[thing], case.amount(case.costs[person, thing]), *extra[person]] for person, thing in sorted(case.costs))
        rows = [["who", "what", "cost", *titles], *pairs]
    else:
        costs = [[case.amount(case.costs[person, thing]) if (person, thing) in case.costs else "" for thing in range(len(case.objects))] for person in range(len(case.persons))]
        rows = [["who", *case.objects, *titles], *([name, *row, *more] for name, row, more in zip(case.persons, costs, extra))]
    return "\n".join(map(",".join, rows)) + "\n", "--pairs" if rows[0][1] == "what" else "--matrix"


def words_of(case, kind, draw, folder):
    """The table in a file, and the words that ask for what the case asks."""
    columns, words = [], []
    if kind == "capacity-column":
        columns.append(("most", case.capacities))
        words += ["--capacity-column", "most"]
    elif set(case.capacities) != {1}:
        file = folder / "capacities.csv"
        file.write_text("".join(f"{name},{count}\n" for name, count in zip(case.persons, case.capacities)))
        words += ["--capacity", str(case.capacities[0]) if len(set(case.capacities)) == 1 else str(file)]
    if case.free and kind == "leave-free-column":
        columns.append(("ends", case.free))
        words += ["--leave-free-column", "ends"]
    elif case.free:
        words.append(f"--leave-free={case.amount(case.free[0])}")
    words += [f"--fix={case.persons[person]}={case.objects[thing]}" for person, thing in sorted(case.fixed)]
    words += [f"--forbid={case.persons[person]}={case.objects[thing]}" for person, thing in sorted(case.forbidden)]
    words += ["--maximise"] if case.maximise else []
    text, form = table_of(case, draw, columns)
    file = folder / "table.csv"
    file.write_text(text)
    return [str(file), form, "--decimals", str(case.decimals), *words]


def look_at_plan(case, output, plan_of):
    """The rows of a plan are what they say, and there is a plan like that among all; plan_of gives the plan of its pairs, or None."""
    header, *rows = csv.reader(io.StringIO(output))
    numbers = {name: number for names in (case.persons, case.objects) for number, name in enumerate(names)}
    pairs = [row for row in rows if row[0] in numbers and row[1]]
    free = [row for row in rows if row[0] in numbers and not row[1]]
    things = [row[1] for row in rows if not row[0]]
    assert header[0] == "who" and rows[-1][:2] == ["total", ""] and len(rows) == len(pairs) + len(free) + len(things) + 1, "rows"
    plan = plan_of(frozenset((numbers[person], numbers[thing]) for person, thing, _ in pairs))
    assert plan, "no such plan"
    assert all(cost == case.amount(case.costs[numbers[person], numbers[thing]]) for person, thing, cost in pairs), "costs of pairs"
    busy, taken = {person for person, _ in plan.pairs}, {thing for _, thing in plan.pairs}
    idle = {name: case.amount(case.free[person]) if case.free and case.capacities[person] else "" for person, name in enumerate(case.persons) if person not in busy}
    assert {person: cost for person, _, cost in free} == idle and len(free) == len(idle), "who stays free"
    assert sorted(things) == [name for thing, name in enumerate(case.objects) if thing not in taken], "what stays free"
    assert rows[-1][2] == case.amount(case.sign() * plan.total), "total"
    return plan


def may_take(case):
    """For each copy of a person, who may take one object, the person and the objects that it may take. Where persons may stay free, only the copies of those who mustn't count."""
    for person, count in enumerate(case.capacities):
        fixed = [{thing} for other, thing in sorted(case.fixed) if other == person]
        allowed = {thing for other, thing in case.costs if other == person and (other, thing) not in case.forbidden}
        single = count - len(fixed) if case.free is None else int(not fixed and count > 0 and case.free[person] is None)
        yield from ((person, things) for things in [*fixed, *[allowed] * single])


def within_of(words):
    """Which plans all that is said is about: all, or those that the wishes allow."""
    return " within the wishes" if any(word.startswith(f"--{wish}") for word in words for wish in WISHES) else ""


def look_at_blame(case, output, within):
    """Who is in the way of a plan is: they can't all be served."""
    sentence, *rows = csv.reader(io.StringIO(output))
    persons = {case.persons.index(name) for word, name in rows if word == "person"}
    told = {case.objects.index(name) for word, name in rows if word == "object"}
    copies = list(may_take(case))
    no_plan = f"No plan{within} gives every"
    if sentence[0].startswith(f"{no_plan} object"):
        able = [person for person, things in copies if things & told]
        assert set(able) == persons and len(able) < len(told), f"who can take too few: {output}"
    else:
        bound = [things for person, things in copies if person in persons and things <= told]
        assert sentence[0].startswith(f"{no_plan} person"), output
        assert len(bound) > len(told) and set().union(*bound) == told, f"who is in the way: {output}"


def look_at_summary(case, said, plan, rank):
    count = len(plan.pairs)
    words = f"plan: {count} pair{'s' * (count != 1)}, total {case.amount(case.sign() * plan.total)}, {rank}; {JUDGES}, "
    assert re.fullmatch(rf"(plan: note: .*\n)*{re.escape(words)}[0-9]+\.[0-9] s\n", said), f"summary: {said}"


def look_at_reasons(case, output, plans, person):
    """What is said of each object is true of all plans that have it."""
    header, *rows, (sentence,) = csv.reader(io.StringIO(output))
    best = min(plan.total for plan in plans)
    assert header == (["what"] if header[0] == "what" else ["object"]) + ["cost", "price", "together", "worse by", "who has it"], header
    units = 10**case.decimals
    # Who has an object that was fixed may like another one better.
    if not any(one == person for one, _ in case.fixed):
        own, others = ([round(float(together) * units) * case.sign() for _, _, _, together, _, holder in rows if (holder == case.persons[person]) == is_own] for is_own in (True, False))
        assert not own or max(own) <= min(own + others), "another one is better"
    for name, cost, price, together, worse, holder in rows:
        stays = name == "stays free"
        pair = None if stays else (person, case.objects.index(name))
        if not stays:
            assert cost == case.amount(case.costs[pair]), "cost"
        total = round(float(cost) * units) * case.sign() + round(float(price) * units)
        assert round(float(together) * units) * case.sign() == total, f"together {name}"
        having = [plan.total for plan in plans if (not any(one == person for one, _ in plan.pairs) if stays else pair in plan.pairs)]
        if worse == "any":
            assert not having, f"{name} is in a plan"
        elif worse and having:
            assert min(having) - best >= round(float(worse) * units), f"{name} is worse by less"
    assert sentence.startswith(f"{case.persons[person]} has "), sentence


def judged(case, kind, folder, draw):
    """Raises where an answer isn't the one that a look at all plans gives."""
    words = words_of(case, kind, draw, folder)
    plans = {plan.pairs: plan for plan in plans_of(case)}
    if kind == "margins":
        return judge_margins(case, words, folder, list(plans.values()))
    best = min((plan.total for plan in plans.values()), default=None)
    asked = {"second": ["--second"], "fair": ["--fair"], "why": ["--why", draw.choice(case.persons)]}.get(kind, [])
    within, (status, output, said) = within_of(words), called("plan", [*words, *asked])
    if best is None:
        if kind in ("second", "why"):
            assert status == 2 and "there is none" in said, said
        else:
            assert status == 3 and said.startswith(f"plan: there is no plan{within}; {JUDGES}, "), said
            look_at_blame(case, output, within)
        return
    totals = sorted(plan.total for plan in plans.values())
    if kind == "second" and len(totals) == 1:
        assert status == 2 and "no plan but the best one" in said, said
        return
    assert status == 0, said
    if kind == "why":
        look_at_reasons(case, output, list(plans.values()), case.persons.index(asked[1]))
        return
    plan = look_at_plan(case, output, plans.get)
    if kind == "second":
        assert plan.total == totals[1], f"second best {plan.total}, and not {totals[1]}"
        far = f"{case.amount(totals[1] - best)} from the best, which has {case.amount(case.sign() * best)}"
        look_at_summary(case, said, plan, f"the second best{within}, {far}")
    elif kind == "fair" and any(plan.costs for plan in plans.values()):
        fairest = min((max(plan.costs), plan.total) for plan in plans.values())
        assert (max(plan.costs), plan.total) == fairest, f"fair {(max(plan.costs), plan.total)}, and not {fairest}"
        words, other = ("least", "greatest") if case.maximise else ("greatest", "least")
        fair = f"the {words} cost is {case.amount(case.sign() * fairest[0])}, and no plan{within} has a better one"
        look_at_summary(case, said, plan, f"the {other} of all fair plans{within}: {fair}")
    elif kind != "fair":
        assert plan.total == best, f"total {plan.total}, and not {best}"
        look_at_summary(case, said, plan, f"the {'greatest' if case.maximise else 'least'}{within or ' of all'}")


def margins_written(case, words, folder):
    """What `margins` writes of a case, whose steps are made one by one."""
    with contextlib.chdir(folder):
        status, output, said = called("tools/from_csv", words)
        assert status == 0, said
        more = [f"--objects={len(case.objects)}"] if len(case.objects) > len(case.persons) else []
        with open("certificate", "wb") as certificate:
            subprocess.run([os.environ["AUCTION"], "solve", "table.arcs", *more], stdout=certificate, check=True)
        status, output, said = called("tools/margins", ["table.arcs", "certificate", "--names", "table.names"])
    assert status == 0, said
    return csv.reader(io.StringIO(output))


def judge_margins(case, words, folder, plans):
    """Within its margin a cost changes no best plan; what is in one contests; and the last line names what is contested."""
    if not plans or not case.costs:
        return
    _, *rows, sentence = margins_written(case, words, folder)
    best, units = min(plan.total for plan in plans), 10**case.decimals
    with_pair = {}
    for plan in plans:
        for pair in case.costs:
            key = pair, pair in plan.pairs
            with_pair[key] = min(with_pair.get(key, 10**9), plan.total)
    contested, seen = set(), set()
    for person, thing, cost, role, margin, last in rows:
        pair = case.persons.index(person), case.objects.index(thing)
        seen.add(pair)
        assert cost == case.amount(case.costs[pair]), "cost"
        other = with_pair.get((pair, role != "plan"))
        contested |= {thing} if role == "contests" else set()
        if margin == "any":
            assert other is None, f"{pair} may change"
        elif other is not None:
            assert other - best >= round(float(margin) * units), f"margin of {pair}"
        if role == "":
            assert other is None or other > best, f"{pair} is in a best plan"
        elif role == "plan":
            assert with_pair[pair, True] == best, f"{pair} is in no best plan"
    assert seen == set(case.costs), "rows"
    told = re.findall(r"x[0-9]", ",".join(sentence))
    assert set(told) == contested and len(told) == len(contested), sentence
    wanted = "Contested at these prices: " if told else "No object is contested: this is the only best plan."
    assert sentence[0].startswith(wanted), sentence
    if not told:
        assert [plan.total for plan in plans].count(best) == 1, "more best plans than one"


def fault_of(kind, number, seed, folder):
    """What is wrong with the answer for a case, or None."""
    draw = random.Random(f"{seed} {kind} {number}")
    case = drawn(draw, kind)
    try:
        judged(case, kind, folder, draw)
    except Exception as error:
        return f"{kind} {number}: {type(error).__name__} {error}: {case}"
    return None


def faults_of_run(seed, count, kinds=KINDS):
    with tempfile.TemporaryDirectory() as folder:
        return [fault for kind in kinds for number in range(count) if (fault := fault_of(kind, number, seed, pathlib.Path(folder)))]


def main():
    words = argparse.ArgumentParser()
    words.add_argument("--program", required=True)
    words.add_argument("--seed", type=int, default=1)
    words.add_argument("--count", type=int, default=500)
    words.add_argument("--kind", action="append", choices=KINDS)
    words = words.parse_args()
    os.environ["AUCTION"] = os.path.abspath(words.program)
    kinds = words.kind or KINDS
    faults = faults_of_run(words.seed, words.count, kinds)
    return told(faults, words.count * len(kinds))


if __name__ == "__main__":
    sys.exit(main())
