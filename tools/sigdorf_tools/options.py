"""What `plan` looks at before it reads a table: numbers that are for the solver, and whether the name of the output
fits what goes into it."""
import importlib.util
import os

from .demands import OPTIONS
from .faults import Fault

# The least and the greatest number of each option, as the solver takes them.
LIMITS = {"bids": (1, 10**12), "seconds": (1, 10**6), "workers": (0, 16)}
# Wishes for a plan of which it can't be asked how it stands beside others.
WITHOUT_QUESTIONS = *OPTIONS, "keep"
# What is written by which option, under which endings of a file's name; and what isn't written at all.
ENDINGS = {"--json": (".json",), "--html": (".html", ".htm")}
BOOK, TABLES, UNWRITTEN = ".xlsx", (".csv", ".tsv"), (".xlsm", ".xls", ".ods", ".pdf")


def look_at_options(words):
    for option, (least, most) in LIMITS.items():
        word = getattr(words, option)
        if word is not None and not (word.isascii() and word.isdigit() and least <= int(word[:20]) <= most):
            raise Fault(f"--{option} {word}: a whole number from {least} to {most:,} is wanted")
    if words.workers is not None and words.seconds is not None:
        way_out = "leave one of them out, or say --bids in place of --seconds"
        raise Fault(f"--workers and --seconds: a search by threads has no limit of time; {way_out}")
    look_at_questions(words)
    if words.why is not None and words.html:
        raise Fault("--why: there is no page of reasons; leave --html out, or say --json")
    if words.by is not None and (words.json or words.html or words.why is not None or is_book(words.output)):
        raise Fault(f"--by {words.by}: it says the order of a plan's rows in a table alone; leave it out, or name another file")
    if words.output is not None:
        look_at_output(words.output, "--json" if words.json else "--html" if words.html else "--why" if words.why is not None else None)


def look_at_questions(words):
    """What is asked of the best plan is found by prices of objects, which there aren't beside these wishes."""
    asked = next((option for option in ("why", "second", "fair") if getattr(words, option)), None)
    beside = next((option for option in WITHOUT_QUESTIONS if getattr(words, option) is not None), None)
    if asked and beside:
        raise Fault(f"--{asked}: it doesn't go with --{beside.replace('_', '-')}; leave one of them out")


def look_at_output(file, said):
    """A file whose name promises something else is one that no other program opens."""
    stem, ending = os.path.splitext(file)
    ending = ending.lower()
    if ending in UNWRITTEN:
        way_out = f"name {stem}.csv or {stem}.xlsx, which a spreadsheet opens, or say --html and name {stem}.html"
        raise Fault(f"-o {file}: a plan is written as CSV, a workbook, JSON or a page; {way_out}")
    if ending == BOOK and importlib.util.find_spec("openpyxl") is None:
        way_out = f"install it, or name {stem}.csv"
        raise Fault(f"-o {file}: to write .xlsx Python needs openpyxl (python3-openpyxl of Debian, `pip install openpyxl` elsewhere); {way_out}")
    wanted = next((option for option, endings in ENDINGS.items() if ending in endings), None)
    fitting = f"{stem}{ENDINGS[said][0] if said in ENDINGS else '.csv'}"
    if wanted and wanted != said:
        instead = f" in place of {said}" if said else ""
        raise Fault(f"-o {file}: its name is that of another form of a plan; say {wanted}{instead}, or name {fitting}")
    if said in ENDINGS and ending in TABLES or said and ending == BOOK:
        kind = "workbook" if ending == BOOK else "table"
        raise Fault(f"-o {file}: its name is that of a {kind}, and {said} is said; leave {said} out, or name {fitting}")


def is_book(file):
    """Whether a plan goes into a workbook."""
    return file is not None and file.lower().endswith(BOOK)
