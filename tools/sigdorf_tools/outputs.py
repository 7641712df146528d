"""Where a plan goes, and in which form: a table as text, or JSON for programs."""
import io
import json
import os
import sys

from .clocks import MARK
from .faults import Fault
from .kinds import ANSWERS, Asked
from .plans import Free, blamed, rows_of_free, rows_of_pairs, sentence_of, write_rows
from .reading import parted_from_sheet

STATUS_WORDS = {"bracket": "stopped", "infeasible": "no plan"}


def text_of_rows(names, rows):
    """Rows as a table that is parted as the one that the names are from."""
    text = io.StringIO(newline="")
    write_rows(names, rows, text)
    return text.getvalue()


def json_of(names, claim, judges, free=Free(), asked=Asked()):
    """An answer as JSON: amounts are numbers with the decimals of the table, exactly."""
    names = names.for_programs()
    told = {"answer": STATUS_WORDS.get(claim.kind, ANSWERS[asked.kind]), **asked.fields(names, number)}
    told |= {"sentence": sentence_of(names, claim, asked)}
    if claim.kind == "infeasible":
        persons, objects = blamed(names, claim)
        told |= {"persons": list(dict.fromkeys(map(names.person, persons)))}
        told |= {"objects": list(dict.fromkeys(map(names.object, objects)))}
    else:
        rows = rows_of_free(names, claim, free)
        told |= {
            "total": number(names.amount(claim.cost)),
            "pairs": [dict(person=person, object=thing, cost=number(cost)) for person, thing, cost in rows_of_pairs(names, claim)],
            "free_persons": [{"person": person} | ({"cost": number(cost)} if cost else {}) for person, _, cost in rows if person],
            "free_objects": [thing for person, thing, _ in rows if not person],
        }
        if asked.changes:
            new, gone = asked.changes.of_plan(rows_of_pairs(names, claim))
            each = names._replace(maximise=False).amount(asked.changes.cost)
            fields = [("new_pairs", new), ("old_pairs", sorted(gone))]
            told |= {"change_cost": number(each)} | {field: [dict(person=person, object=thing) for person, thing in pairs] for field, pairs in fields}
        if claim.kind == "bracket":
            told |= {"bound": number(names.amount(claim.lower))}
    return json.dumps(told | {"proved_by": judges}, ensure_ascii=False, indent=1) + "\n"


def json_of_reasons(names, rows):
    """Reasons as JSON, from their rows, whose amounts are told with a point."""
    told = []
    _, *rows, (sentence,) = rows
    for thing, cost, price, together, worse, holder in rows:
        record = {"object": thing, "cost": number(cost), "price": number(price), "together": number(together)}
        # Of his own object nothing is worse, and one that no plan can have has no number.
        record |= {"worse_by": None if worse == "any" else number(worse)} if worse else {}
        told.append(record | ({"holder": holder} if holder else {}))
    return json.dumps({"objects": told, "sentence": sentence}, ensure_ascii=False, indent=1) + "\n"


def number(text):
    """The number of an amount; a floating-point number has more digits than a total has, so it is written as it was. A time stays a text."""
    if MARK in text:
        return text
    return float(text) if "." in text else int(text)


def write_output(content, file, table):
    """Writes a text to standard output, or a text or bytes into a file, which mustn't be the table that the plan is for."""
    if file is None:
        sys.stdout.reconfigure(encoding="utf-8", newline="")
        sys.stdout.write(content)
        sys.stdout.flush()
        return
    table, _ = parted_from_sheet(table)
    if os.path.exists(file) and os.path.exists(table) and os.path.samefile(file, table):
        raise Fault(f"{file}: the plan would go over the table that it is made from; name another file after -o")
    with open(file, "wb") as opened:
        opened.write(content if isinstance(content, bytes) else content.encode("utf-8"))
