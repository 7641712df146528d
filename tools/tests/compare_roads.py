#!/usr/bin/env python3
"""Compares the roads from a table to its problem: where one for large tables takes it, sound or spoiled, the road for all tables gives the same problem.

    tools/tests/compare_roads.py [--seed S] [--count N]

Each table comes of the seed and its number. The last line is `N passed, M failed`; before it stands how many matrices and how many tables of pairs the roads for large
ones took. Without numpy there is none for matrices.
"""
import argparse
import pathlib
import random
import sys
import tempfile

sys.dont_write_bytecode = True
sys.path.append(str(pathlib.Path(__file__).resolve().parents[1]))
from calls import told  # noqa: E402
from fuzz_tables import NAMES, PIECES  # noqa: E402
from sigdorf_tools import array_lines, arrays, pair_arrays, pair_texts  # noqa: E402
from sigdorf_tools.faults import Fault  # noqa: E402
from sigdorf_tools.matrices import problem_by_arrays  # noqa: E402
from sigdorf_tools.models import plain_model  # noqa: E402
from sigdorf_tools.problems import problem_of  # noqa: E402
from sigdorf_tools.tables import read_source, table_of_source  # noqa: E402

ROADS = [problem_by_arrays, pair_texts.problem_of_pairs]
# What a cell is spoiled by, beside what any table is.
ODD_CELLS = ["", "-", ".", "-.5", "5.", ".5", "-0", "-0.0", "007", "+3", "1.234", "0.500", "1,5", "99999999", "100000000", "1000000000", "1000000001", "12345.6789", "1e3", " 7", "0.1234567890", "1.2.3", "3-4", "\u22125", "a\rb"]


def sound(draw):
    """The rows of a table of plain numbers, with or without decimals, and names; what parts its cells, and whether it has a header."""
    separator, has_header = draw.choice(",;\t"), draw.random() < 0.8
    mark = draw.choice(".,") if separator == ";" else "."
    most, decimals, is_even = draw.choice([9, 9_999, 9_999, 99_999_999, 10**9]), draw.randrange(5), draw.random() < 0.5
    persons, objects = draw.randrange(1, 9), draw.randrange(1, 9)

    def cost():
        places = decimals if is_even else draw.randrange(decimals + 1)
        return f"{draw.randrange(-most, most) / 10**places:.{places}f}".replace(".", mark)

    def named(count):
        return [f"{draw.choice([*NAMES[3:], 'Wartung der Halle', 'x' * 31])} {number}" for number in range(count)]

    if draw.random() < 0.4:
        # Objects whose names are numbers may be costs of a matrix.
        things = named(objects) if draw.random() < 0.8 else [str(draw.randrange(99)) for _ in range(objects)]
        pairs = [[person, thing, cost()] for person in named(persons) for thing in things]
        if draw.random() < 0.4:
            draw.shuffle(pairs)
        pairs = [pair for pair in pairs if draw.random() < draw.choice([0.7, 1])] or pairs
        return [["who", "what", draw.choice(["", "cost", "cost", "cost"])]][: int(has_header)] + pairs, separator, has_header
    share = draw.choice([0, 0, 0.3])
    rows = [["" if draw.random() < share else cost() for _ in range(objects)] for _ in range(persons)]
    if has_header:
        rows = [[draw.choice(["", "who"]), *named(objects)], *([name, *row] for name, row in zip(named(persons), rows))]
    return rows, separator, has_header


def spoiled(draw):
    """The text of a table with up to two changes, and whether it has a header."""
    rows, separator, has_header = sound(draw)
    for _ in range(draw.choice([0, 0, 1, 2])):
        row = draw.choice(rows)
        row[draw.randrange(len(row))] = draw.choice([*ODD_CELLS, *NAMES])
    text = draw.choice(["\n", "\n", "\r\n"]).join(map(separator.join, rows)) + draw.choice(["\n", ""])
    if draw.random() < 0.3:
        begin = draw.randrange(len(text) + 1)
        text = text[:begin] + draw.choice(PIECES) + text[begin + draw.randrange(3) :]
    return text, has_header


def outcome(problem):
    """All that comes of a problem."""
    return [*problem[:5], "".join(plain_model(problem).lines()), [(arcs.objects, arcs.costs(), arcs.count(), arcs.text if arcs.count() else "") for arcs in problem.arcs]]


def fault_of(folder, number, seed):
    """Which road took the table, as a place in ROADS, or None; and what is wrong with it, or None."""
    draw = random.Random(f"{seed} {number}")
    text, has_header = spoiled(draw)
    # Few characters and arcs at once, so that there are more batches than one.
    arrays.BATCH, array_lines.BATCH, pair_texts.BATCH, pair_texts.LEAST_WINDOW, pair_arrays.BATCH, pair_arrays.ONE_BY_ONE = (draw.choice([1, 30, 10_000]) for _ in range(6))
    # Many names at the same places, tables that are no runs, and pairs that are sorted.
    pair_arrays.PLACES, pair_texts.MOST_RUNS, pair_arrays.MOST_CELLS = draw.choice([2, 18]), draw.choice([2, 20_000]), draw.choice([0, 1_000])
    pair_texts.numpy_for = draw.choice([arrays.numpy_for, lambda characters: None])
    form, decimals, maximise, mark = draw.choice([None, None, "matrix", "pairs"]), draw.choice([None, None, None, 0, 3, 9]), draw.random() < 0.3, draw.choice([None, None, ".", ","])
    said = form, has_header, decimals, maximise, mark
    file = folder / "table.csv"
    file.write_bytes(text.encode())
    try:
        source = read_source(str(file))
    except Fault:
        return None, None
    for road, problem_by_road in enumerate(ROADS):
        try:
            if found := problem_by_road(source, *said):
                is_same = outcome(found) == outcome(problem_of(table_of_source(source), *said))
                return road, None if is_same else f"table {number}: another problem: {text!r} {said}"
        except Exception as error:
            return road, f"table {number}: {type(error).__name__} {error}: {text!r} {said}"
    return None, None


def main():
    words = argparse.ArgumentParser()
    words.add_argument("--seed", type=int, default=1)
    words.add_argument("--count", type=int, default=2_000)
    words = words.parse_args()
    arrays.LEAST_CHARACTERS = 0
    with tempfile.TemporaryDirectory() as folder:
        taken, found = zip(*(fault_of(pathlib.Path(folder), number, words.seed) for number in range(words.count)))
    faults = [fault for fault in found if fault]
    print(f"{taken.count(0)} matrices, {taken.count(1)} pairs")
    return told(faults, words.count)


if __name__ == "__main__":
    sys.exit(main())
