#!/usr/bin/env python3
"""Spoils tables and has them planned, with wishes and questions drawn besides: each ends with a documented status, and where that is 2 in one sentence with nothing on standard output.

    tools/tests/fuzz_plans.py --program PATH [--seed S] [--count N]

Each table comes of the seed and its number. Workbooks are among them where openpyxl is installed. The last line is `N passed, M failed`; before it stands how often each status came.
"""
import argparse
import collections
import csv
import io
import json
import os
import pathlib
import random
import sys
import tempfile

sys.dont_write_bytecode = True
sys.path.append(str(pathlib.Path(__file__).resolve().parents[1]))
from calls import called, told  # noqa: E402
from fuzz_tables import BYTES, NAMES, sound_table, spoiled_table  # noqa: E402

# A best plan; a fault; no plan; a search that was stopped.
STATUSES = (0, 2, 3, 4)
# Words, each with how often it is said in a hundred tables where many are.
WORDS = [
    (8, ["--pairs"]), (8, ["--matrix"]), (10, ["--no-header"]), (8, ["--decimals=2"]), (4, ["--decimals=0"]),
    (5, ["--decimal-mark=comma"]), (5, ["--decimal-mark=point"]), (4, ["--separator=semicolon"]),
    (6, ["--columns=Ada,x,1"]), (4, ["--columns=1,2,3"]), (6, ["--ignore-column=x"]), (3, ["--sheet=Plan"]), (10, ["--maximise"]), (10, ["--capacity=2"]), (4, ["--capacity-column=x"]),
    (10, ["--leave-free=7.5"]), (4, ["--leave-free-column=roof"]), (6, ["--fix=Ada=roof"]), (6, ["--forbid=Ada=roof"]), (6, ["--forbid=a=b=x"]), (5, ["--bids=1"]),
    (5, ["--gap=x"]), (5, ["--round=1"]), (4, ["--range=A1:C3"]), (3, ["--encoding=cp1252"]), (8, ["--need=2"]), (6, ["--undone=3"]), (3, ["--by=job"]),
    (3, ["--undone-row=Ben"]), (3, ["--need-row=Ben"]), (2, ["--undone-column=x"]), (2, ["--gap=--"]),
]
QUESTIONS = [[], [], [], [], ["--second"], ["--fair"], ["--why=Ada"]]
FORMS = [[], [], [], ["--json"], ["--html"]]


def drawn_words(draw):
    often = draw.choice([0, 0, 1, 3])
    said = [word for share, words in WORDS if draw.randrange(300) < share * often for word in words]
    # Only one of these may be said.
    forms = [word for word in said if word in ("--pairs", "--matrix")]
    return [word for word in said if word not in forms[1:]] + draw.choice(QUESTIONS) + draw.choice(FORMS)


def spoiled_workbook(draw):
    """A workbook whose cells, or whose bytes, are spoiled; None without the library."""
    try:
        import openpyxl
    except ImportError:
        return None
    book, sheet = openpyxl.Workbook(), None
    for _ in range(draw.choice([1, 1, 1, 2])):
        sheet = book.active if sheet is None else book.create_sheet()
        for row in [["who", "x", "roof"], *([name, draw.randrange(99), draw.random() * 50] for name in draw.sample(NAMES, 3))]:
            sheet.append([draw.choice(["", None, True, "=A1", "e9", -4, 1e300]) if draw.random() < 0.05 else cell for cell in row])
    content = io.BytesIO()
    book.save(content)
    content = content.getvalue()
    if draw.random() < 0.4:
        begin = draw.randrange(len(content))
        content = content[:begin] + draw.choice([b"", *BYTES]) + content[begin + draw.choice([0, 1, 200]) :]
    return content


def look(words, status, output, said):
    """What a planner is told is what the status says."""
    assert status in STATUSES, f"status {status}"
    lines = said.splitlines()
    assert all(line.startswith("plan: ") or line.startswith("auction: ") for line in lines), said
    if status == 2:
        assert not output and lines and lines[-1].startswith("plan: ") and len(lines[-1]) < 1_000, (output, said)
        return
    assert output and ("total" in lines[-1] or "there is no plan" in lines[-1]), said
    if "--json" in words:
        json.loads(output)
    elif "--html" in words:
        assert output.endswith("</html>\n")
    else:
        assert len(list(csv.reader(io.StringIO(output)))) > 1


def fault_of(folder, number, seed):
    """The status for a table, and what is wrong with how it is planned, or None."""
    draw = random.Random(f"{seed} {number}")
    workbook = spoiled_workbook(draw) if draw.random() < 0.1 else None
    content = workbook or (sound_table(draw).encode() if draw.random() < 0.4 else spoiled_table(draw))
    name = "table.xlsx" if workbook else "table.json" if (content[:1] == b"{") != (draw.random() < 0.02) else "table.csv"
    file = folder / name
    file.write_bytes(content)
    words = drawn_words(draw)
    status = None
    try:
        status, output, said = called("plan", [file, *words])
        look(words, status, output, said)
    except Exception as error:
        return status, f"table {number}: {type(error).__name__} {error}: {content!r} {words}"
    return status, None


def results_of_run(seed, count):
    """How often each status came, and all faults."""
    with tempfile.TemporaryDirectory() as folder:
        statuses, faults = zip(*(fault_of(pathlib.Path(folder), number, seed) for number in range(count)))
    return collections.Counter(statuses), [fault for fault in faults if fault]


def main():
    words = argparse.ArgumentParser()
    words.add_argument("--program", required=True)
    words.add_argument("--seed", type=int, default=1)
    words.add_argument("--count", type=int, default=20_000)
    words = words.parse_args()
    os.environ["AUCTION"] = os.path.abspath(words.program)
    statuses, faults = results_of_run(words.seed, words.count)
    print(", ".join(f"status {status}: {count}" for status, count in sorted(statuses.items(), key=str)))
    return told(faults, words.count)


if __name__ == "__main__":
    sys.exit(main())
