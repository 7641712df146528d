#!/usr/bin/env python3
"""Spoils tables, and looks that each one is read, or is a fault of one sentence; what is read is an arc file that the second checker takes.

    tools/tests/fuzz_tables.py [--seed S] [--count N]

Each table comes of the seed and its number. The last line is `N passed, M failed`; a table that ended in anything else is shown.
"""
import argparse
import json
import pathlib
import random
import sys
import tempfile

sys.dont_write_bytecode = True
sys.path.append(str(pathlib.Path(__file__).resolve().parents[1]))
import check_certificate  # noqa: E402
from calls import told  # noqa: E402
from sigdorf_tools.areas import Area  # noqa: E402
from sigdorf_tools.columns import picked, titles_said  # noqa: E402
from sigdorf_tools.faults import Fault  # noqa: E402
from sigdorf_tools.headers import from_header  # noqa: E402
from sigdorf_tools.models import look_at_size, plain_model  # noqa: E402
from sigdorf_tools.problems import problem_of  # noqa: E402
from sigdorf_tools.reading import Reading  # noqa: E402
from sigdorf_tools.tables import read_table  # noqa: E402

# What is put into tables: what parts and quotes, marks and signs, what is no text, and what has stood in tables.
PIECES = [",", ";", "\t", "\n", "\r", "\r\n", '"', '""', ".", "-", "+", "\u2212", "'", " ", "\u00a0", "e9", "1.234", "1,234.5", "0", "00", "999999999", "1000000000", "inf", "nan", "#N/A", "TRUE", "12 km", "\ufeff", "\x00", "\x07",
          "\u0085", "sep=;\n", "\u00e4", "\U0001f600", "[", "{", "null", "=A1", "%s", "@", "2026-11-26", "1:30", "0:01:30", "\u20ac", "%", "1e5", "Week 48,,\n", "0." + "0" * 40 + "1", "9" * 5000]
BYTES = [b"\xff", b"\xfe\xff", b"\xc3", b"\x80", b"PK\x03\x04"]
NAMES = ["Ada", "Ben", "Smith, Ann", "roof", "x", "1", "total", "a=b", "\u00d6l"]


def sound_table(draw):
    """A table without a fault, in one of the forms."""
    separator, decimals = draw.choice(",;\t"), draw.randrange(3)
    persons, objects = (draw.sample(NAMES, draw.randrange(1, 5)) for _ in range(2))
    def cost():
        return f"{draw.randrange(-50, 9999) / 10**decimals:.{decimals}f}".replace(".", "," if separator == ";" and draw.random() < 0.5 else ".")
    def cell(name):
        return f'"{name}"' if separator in name or draw.random() < 0.1 else name
    kind = draw.randrange(3)
    if kind == 0:
        rows = [[cell(person), cell(thing), cost()] for person in persons for thing in objects if draw.random() < 0.8]
    elif kind == 1:
        rows = [["", *map(cell, objects)], *([cell(person), *(cost() if draw.random() < 0.8 else "" for _ in objects)] for person in persons)]
    else:
        return json.dumps({person: {thing: draw.randrange(99) for thing in objects} for person in persons})
    return draw.choice(["\n", "\r\n"]).join(separator.join(row) for row in rows) + "\n"


def spoiled_table(draw):
    """A table with up to four changes, as bytes."""
    text = sound_table(draw)
    for _ in range(draw.randrange(5)):
        begin = draw.randrange(len(text) + 1)
        end = min(begin + draw.choice([0, 0, 1, 3, 20]), len(text))
        text = text[:begin] + draw.choice([draw.choice(PIECES), text[begin:end] * 2, ""]) + text[end:]
    content = text.encode()
    if draw.random() < 0.1:
        place = draw.randrange(len(content) + 1)
        content = content[:place] + draw.choice(BYTES) + content[place:]
    return content


def words_for(draw):
    """What may be said of the table: how it is read, decimals, the form, whether there is a header, the mark, columns, and to how many decimals costs are rounded."""
    area = draw.choice([None] * 9 + [Area(1, 3, 0, 2), Area(2, 9, 1, 9)])
    reading = Reading(None, None, area, draw.choice([None] * 9 + ["cp1252", "utf-16", "nosuch"]), frozenset(draw.choice([[], [], ["x", "1"]])))
    most = draw.choice([None, None, None, 1])
    return reading, most, draw.choice([None, None, 0, 2, 9]), draw.choice([None, None, "pairs", "matrix"]), draw.random() < 0.8, draw.choice([None, None, None, ".", ","]), draw.choice([None, None, None, "1,2,3", "Ada,x,1"])


def look(file, reading, most, decimals, form, has_header, mark, columns):
    table = read_table(str(file), reading)
    table = from_header(table) if has_header and table.form is None else table
    if columns:
        table, form = picked(table, titles_said(columns), [], has_header)[0], "pairs"
    problem = problem_of(table, form, has_header, decimals if most is None else None, False, mark, most)
    model = plain_model(problem)
    look_at_size(table.file, model)
    check_certificate.read_problem("".join(model.lines()).encode(), max(len(problem.persons), len(problem.objects)))


def fault_of(folder, number, seed):
    """What is wrong with how a table is read, or None."""
    draw = random.Random(f"{seed} {number}")
    content, words = spoiled_table(draw), words_for(draw)
    file = folder / draw.choice(["table.csv", "table.csv", "table.json"])
    file.write_bytes(content)
    try:
        look(file, *words)
    except Fault as fault:
        return None if str(fault).startswith(str(file)) or str(fault).startswith("--") else f"table {number}: no place in `{fault}`"
    except Exception as error:
        return f"table {number}: {type(error).__name__} {error}: {content!r} {words}"
    return None


def faults_of_run(seed, count):
    with tempfile.TemporaryDirectory() as folder:
        return [fault for fault in (fault_of(pathlib.Path(folder), number, seed) for number in range(count)) if fault]


def main():
    words = argparse.ArgumentParser()
    words.add_argument("--seed", type=int, default=1)
    words.add_argument("--count", type=int, default=20_000)
    words = words.parse_args()
    faults = faults_of_run(words.seed, words.count)
    return told(faults, words.count)


if __name__ == "__main__":
    sys.exit(main())
