#!/usr/bin/env python3
"""Compares what `plan` says of small tables with a look at all plans, where jobs want several persons, can't go together, or
may be left undone, and where an old plan is kept; each with the other wishes beside it.

    tools/tests/compare_demands.py --program PATH [--seed S] [--count N]

Each table comes of the seed and its number. The last line is `N passed, M failed`; a table whose answer differs is shown.
"""
import argparse
import csv
import io
import itertools
import json
import os
import pathlib
import random
import sys
import tempfile
from typing import NamedTuple

sys.dont_write_bytecode = True
sys.path.append(str(pathlib.Path(__file__).resolve().parents[1]))
from calls import called, told as ended  # noqa: E402


class Case(NamedTuple):
    """Costs by person and object; for each person how many objects he may take, for each object how many persons it
    wants; its day, or pairs of objects that can't go together; for each person the price of staying free, and for each
    object that of staying undone, with None for those who mustn't, or None where nobody asked; pairs that are fixed, forbidden, or of an old plan, and what each other
    pair costs more; and whether the greatest total is wanted."""

    costs: dict
    capacities: list
    needs: list
    days: list
    apart: frozenset
    free: list | None
    undone: list | None
    fixed: frozenset
    forbidden: frozenset
    kept: frozenset
    change: int | None
    maximise: bool

    def sign(self):
        return -1 if self.maximise else 1


def person_of(number):
    return f"p{number}"


def object_of(number):
    return f"x{number}"


def drawn(draw):
    persons = draw.randrange(1, 5)
    has_apart = draw.random() < 0.25
    objects = draw.randrange(3 if has_apart else 1, 5 if persons < 4 else 4)
    most = draw.choice([4, 30])
    costs = {pair: draw.randrange(-3, most) for pair in itertools.product(range(persons), range(objects)) if draw.random() < draw.choice([0.6, 0.9, 1])}
    pairs = sorted(costs)
    draw.shuffle(pairs)

    def some(share, most):
        return frozenset(pairs[: draw.randrange(1, most)]) if draw.random() < share else frozenset()
    most_places = [1, 2, 2, 3] if has_apart else [0, 1, 1, 2, 3]
    capacities = [draw.choice(most_places) for _ in range(persons)] if has_apart or draw.random() < 0.6 else [1] * persons
    capacities[0] = capacities[0] or 1
    needs = [draw.choice([0, 1, 1, 2, 3]) for _ in range(objects)] if draw.random() < 0.7 else [1] * objects
    needs[0] = needs[0] or 2
    days = [draw.randrange(2) for _ in range(objects)] if draw.random() < 0.4 and not has_apart else list(range(objects))
    apart = frozenset(pair for pair in itertools.combinations(range(objects), 2) if draw.random() < 0.5) if has_apart else frozenset()
    maximise = draw.random() < 0.3
    free, undone = prices(draw, persons, most), prices(draw, objects, most)
    # Who may take more than one object isn't paid for staying free.
    free = [price and 0 for price in free] if free and maximise and max(capacities) > 1 else free
    kept = some(0.4, 5)
    case = Case(costs, capacities, needs, days, apart, free, undone, some(0.3, 3), frozenset(), kept, draw.randrange(5) if kept else None, maximise)
    draw.shuffle(pairs)
    case = case._replace(forbidden=some(0.3, 4) - case.fixed)
    return case if can_fix(case) else case._replace(fixed=frozenset())


def prices(draw, count, most):
    """A price for all, one for each with none for some, or nothing."""
    if draw.random() < 0.6:
        return None
    one = draw.randrange(most)
    found = [one] * count if draw.random() < 0.5 else [draw.choice([one, draw.randrange(most), None]) for _ in range(count)]
    return found if any(price is not None for price in found) else None


def can_fix(case):
    """Whether all fixed pairs go together."""
    return all(is_within(case, case.fixed, count, which) for count, which in ((case.capacities, 0), (case.needs, 1))) and are_apart(case, case.fixed)


def is_within(case, pairs, most, which):
    return all(sum(pair[which] == number for pair in pairs) <= count for number, count in enumerate(most))


def are_apart(case, pairs):
    """Whether nobody has two objects of one day, or two that can't go together."""
    days = [(person, case.days[thing]) for person, thing in pairs]
    return len(set(days)) == len(days) and not any((person, one) in pairs and (person, other) in pairs for person, _ in pairs for one, other in case.apart)


def plans_of(case):
    """All plans, as pairs with the total on a scale where the least is best."""
    allowed = [pair for pair in case.costs if pair not in case.forbidden]
    places, wanted = sum(case.capacities), sum(case.needs)
    for chosen in itertools.product((False, True), repeat=len(allowed)):
        pairs = frozenset(itertools.compress(allowed, chosen))
        if not case.fixed <= pairs or not are_apart(case, pairs):
            continue
        if not is_within(case, pairs, case.capacities, 0) or not is_within(case, pairs, case.needs, 1):
            continue
        if case.free is None and case.undone is None and len(pairs) < min(places, wanted):
            continue
        open_places = [need - sum(other == thing for _, other in pairs) for thing, need in enumerate(case.needs)]
        if case.undone and any(count and price is None for count, price in zip(open_places, case.undone)):
            continue
        idle = [number for number, count in enumerate(case.capacities) if count and all(person != number for person, _ in pairs)]
        if case.free and any(case.free[person] is None for person in idle):
            continue
        costs = [case.costs[pair] for pair in pairs] + [case.free[person] for person in idle if case.free]
        costs += [count * (price or 0) for count, price in zip(open_places, case.undone or ())]
        changes = sum(pair not in case.kept for pair in pairs) * case.change if case.kept else 0
        yield pairs, case.sign() * sum(costs) + changes


def words_of(case, folder):
    """The table in a file, and the words that ask for what the case asks."""
    persons, objects = len(case.capacities), len(case.needs)
    has_column, has_row = (prices is not None and len(set(prices)) > 1 for prices in (case.free, case.undone))
    free = [[told(price)] for price in case.free] if has_column else [[]] * persons
    rows = [["who", *map(object_of, range(objects)), *["free"] * has_column]]
    rows += [[person_of(person), *(told(case.costs.get((person, thing))) for thing in range(objects)), *free[person]] for person in range(persons)]
    rows += [["undone", *map(told, case.undone), *[""] * has_column]] if has_row else []
    # By a row of the table, or by a list.
    has_days, is_listed = len(set(case.days)) < objects, len(case.costs) % 2
    rows += [["day", *(f"day {day}" for day in case.days), *[""] * has_column]] if has_days and not is_listed else []
    words = [written(folder, "table.csv", rows), "--matrix", *(["--apart-row", "day"] if has_days and not is_listed else [])]
    words += [*(["--leave-free-column", "free"] if has_column else []), *(["--undone-row", "undone"] if has_row else [])]
    if set(case.capacities) != {1}:
        words += ["--capacity", written(folder, "capacities.csv", [[person_of(number), str(count)] for number, count in enumerate(case.capacities)])]
    if set(case.needs) != {1}:
        words += ["--need", written(folder, "needs.csv", [[object_of(number), str(count)] for number, count in enumerate(case.needs)])]
    if has_days and is_listed:
        words += ["--apart", written(folder, "days.csv", [[object_of(number), f"day {day}"] for number, day in enumerate(case.days)])]
    if case.apart:
        words += ["--apart", written(folder, "apart.csv", [[object_of(one), object_of(other)] for one, other in sorted(case.apart)])]
    words += [f"--{option}={prices[0]}" for option, prices, is_told in (("leave-free", case.free, has_column), ("undone", case.undone, has_row)) if prices and not is_told]
    words += [f"--{option}={person_of(person)}={object_of(thing)}" for option, pairs in (("fix", case.fixed), ("forbid", case.forbidden)) for person, thing in sorted(pairs)]
    if case.kept:
        old = [["who", "object", "cost"], *([person_of(person), object_of(thing), "7"] for person, thing in sorted(case.kept)), ["total", "", "7"]]
        words += ["--keep", written(folder, "old.csv", old), f"--change-cost={case.change}"]
    return words + ["--maximise"] * case.maximise


def told(price):
    return "" if price is None else str(price)


def written(folder, name, rows):
    (folder / name).write_text("".join(",".join(row) + "\n" for row in rows))
    return str(folder / name)


def look_at_plan(case, output, plans):
    """The plan is one of all, and tells its own costs, who stays free, and each place that stays open."""
    told = json.loads(output)
    pairs = frozenset((int(pair["person"][1:]), int(pair["object"][1:])) for pair in told["pairs"])
    assert len(pairs) == len(told["pairs"]) and pairs in plans, f"no such plan: {output}"
    best = min(plans.values())
    assert plans[pairs] == best, f"total {plans[pairs]}, and not {best}"
    assert told["total"] == case.sign() * best, f"total is told as {told['total']}, and is {case.sign() * best}"
    for pair in told["pairs"]:
        assert pair["cost"] == case.costs[int(pair["person"][1:]), int(pair["object"][1:])], f"cost: {pair}"
    free = [record["person"] for record in told["free_persons"]]
    assert sorted(free) == sorted(person_of(number) for number in range(len(case.capacities)) if all(person != number for person, _ in pairs)), free
    open_places = [object_of(number) for number, need in enumerate(case.needs) for _ in range(need - sum(thing == number for _, thing in pairs))]
    assert told["free_objects"] == open_places, told["free_objects"]
    if case.kept:
        new = {(int(pair["person"][1:]), int(pair["object"][1:])) for pair in told["new_pairs"]}
        gone = {(int(pair["person"][1:]), int(pair["object"][1:])) for pair in told["old_pairs"]}
        assert (new, gone) == (pairs - case.kept, case.kept - pairs), told


def look_at_blame(case, output):
    """What is said of who may take what is so."""
    told = json.loads(output)
    persons, things = ({int(name[1:]) for name in told[field]} for field in ("persons", "objects"))
    allowed = [pair for pair in case.costs if pair not in case.forbidden and case.capacities[pair[0]]]
    if "every object to somebody" in told["sentence"]:
        # Whoever has a fixed pair may take nothing else with that place, and is told or not.
        assert {person for person, thing in allowed if thing in things and not busy(case, person)} <= persons, output
    else:
        assert {thing for person, thing in allowed if person in persons and not busy(case, person)} <= things | closed(case), output


def busy(case, person):
    """Whether a person has fixed pairs, which leave him less than the table says."""
    return any(one == person for one, _ in case.fixed)


def closed(case):
    """Objects that nobody else is wanted for."""
    return {thing for thing, need in enumerate(case.needs) if need <= sum(other == thing for _, other in case.fixed)}


def judged(case, folder):
    """Raises where an answer isn't the one that a look at all plans gives."""
    words, plans = words_of(case, folder), dict(plans_of(case))
    if not case.costs:
        return
    status, output, said = called("plan", [*words, "--json"])
    if not plans:
        assert status == 3, (status, output, said)
        look_at_blame(case, output)
        return
    assert status == 0, (status, output, said)
    look_at_plan(case, output, plans)
    status, output, said = called("plan", words)
    rows = list(csv.reader(io.StringIO(output)))
    assert status == 0 and rows[-1][0] == "total" and int(rows[-1][2]) == case.sign() * min(plans.values()), output


def fault_of(number, seed, folder):
    """What is wrong with the answer for a case, or None."""
    case = drawn(random.Random(f"{seed} {number}"))
    try:
        judged(case, folder)
    except Exception as error:
        return f"{number}: {type(error).__name__} {error}: {case}"
    return None


def faults_of_run(seed, count):
    with tempfile.TemporaryDirectory() as folder:
        return [fault for number in range(count) if (fault := fault_of(number, seed, pathlib.Path(folder)))]


def main():
    words = argparse.ArgumentParser()
    words.add_argument("--program", required=True)
    words.add_argument("--seed", type=int, default=1)
    words.add_argument("--count", type=int, default=2_000)
    words = words.parse_args()
    os.environ["AUCTION"] = os.path.abspath(words.program)
    faults = faults_of_run(words.seed, words.count)
    return ended(faults, words.count)


if __name__ == "__main__":
    sys.exit(main())
