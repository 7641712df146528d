"""A plan as a page for a browser and for paper: what it says, its table, a picture, and the prices; or who is in the way of one."""
from html import escape

from .kinds import among
from .models import Model
from .names import counted
from .pictures import picture_of
from .plans import blamed, by_objects, rows_of_free, rows_of_pairs, rows_of_plan, sentence_of
from .prices import told_prices

STYLE = """
body { font-family: Helvetica, Arial, "DejaVu Sans", sans-serif; color: #22262b; margin: 2em auto; max-width: 60em; padding: 0 1em; line-height: 1.4; }
h1 { font-size: 1.5em; } h2 { font-size: 1.15em; margin-top: 2em; }
table { border-collapse: collapse; margin-bottom: 1.5em; } th, td { text-align: left; padding: 0.3em 1em 0.3em 0; border-bottom: 1px solid #c3c9d0; }
td.number, th.number { text-align: right; } tr.total td { font-weight: bold; border-bottom: none; } tr.free td { color: #747c85; }
p.judged { color: #747c85; } th button { all: unset; cursor: pointer; } th button:hover, th button:focus-visible { text-decoration: underline; } svg { max-width: 100%; height: auto; }
@media print { body { margin: 0; max-width: none; } h2, tr, svg { break-inside: avoid; } h2, h2 + p { break-after: avoid; } thead { display: table-header-group; } }
"""


# Sorts a table by the column whose title is pressed, up and down in turn; sums stay below. Amounts have as many decimals.
SORT = """
document.addEventListener("click", (event) => {
  const title = event.target.closest("th");
  if (!title || !event.target.closest("button")) return;
  const body = title.closest("table").tBodies[0], column = title.cellIndex;
  const key = (row) => row.cells[column] ? row.cells[column].textContent : "";
  const amount = (text) => text.trim() === "" ? Infinity : Number(text.replace(/[^0-9-]/g, ""));
  const order = (a, b) => (a > b) - (a < b);
  const compare = title.className === "number" ? (a, b) => order(amount(key(a)), amount(key(b))) : (a, b) => key(a).localeCompare(key(b), undefined, { numeric: true });
  const rows = [...body.rows], last = rows.filter((row) => row.className === "total");
  const sorted = rows.filter((row) => row.className !== "total").sort(compare);
  if (title.dataset.sorted === "up") sorted.reverse();
  title.dataset.sorted = title.dataset.sorted === "up" ? "down" : "up";
  body.append(...sorted, ...last);
});
"""


def page_of(names, problem, model, claim, free, asked, summary, time):
    """The text of the page; the time is that of the plan, as a text."""
    title, prices = sentence_of(names, claim, asked), prices_of(names, model, claim, asked)
    is_hall = claim.kind == "infeasible"
    parts = [
        "<!DOCTYPE html>",
        '<html lang="en"><head><meta charset="utf-8"><meta name="viewport" content="width=device-width">',
        f"<title>{escape(names.table)}: {escape(title)}</title><style>{STYLE}</style></head><body>",
        f"<h1>{escape(title)}</h1>",
        f'<p class="judged">{escape(names.table)}, planned {escape(time)}: {escape(summary)}</p>',
        *list_of_wishes(asked),
        *(tables_of_hall(names, claim) if is_hall else tables_of_plan(names, claim, free, asked)),
        "<h2>Picture</h2>",
        picture_of_plan(names, problem, model, claim, prices, title),
        *(table_of_prices(names, claim, asked, prices) if prices and not is_hall else []),
        f"<script>{SORT}</script></body></html>",
    ]
    return "\n".join(parts) + "\n"


def prices_of(names, model, claim, asked):
    """Prices are told where the solver has one for each object, by the costs of the table."""
    has_prices = isinstance(model, Model) and not asked.changes
    return told_prices(model.rows(), claim, model.persons())[: len(names.objects)] if has_prices else []


def picture_of_plan(names, problem, model, claim, prices, title):
    """The picture of the table's persons and objects, without a title that is shown."""
    single = names._replace(persons=problem.persons)
    return picture_of(single, rows_of(problem), pairs_of(model, claim), claim_of_owners(model, claim), prices, title, False)


def pairs_of(model, claim):
    """The pairs of a plan by the numbers of the table's persons and objects."""
    picks = enumerate(claim.picks[: len(model.owners)])
    return {(model.owners[copy] + 1, thing) for copy, (thing, _) in picks if thing <= model.objects}


def claim_of_owners(model, claim):
    """The claim with the table's persons in place of their copies. Where dummies are there, those who aren't in the Hall set are told: somebody is in it if all of his copies are."""
    if claim.kind != "infeasible":
        return claim
    inside = {copy - 1 for copy in claim.persons}
    owners = {model.owners[copy] for copy in inside}
    if model.dummies():
        owners -= {owner for copy, owner in enumerate(model.owners) if copy not in inside}
    return claim._replace(persons=sorted(owner + 1 for owner in owners))


def rows_of(problem):
    for person, arcs in enumerate(problem.arcs, 1):
        yield person, arcs.objects, arcs.costs()


def list_of_wishes(asked):
    """What tells this page from another one of the same table."""
    if asked.wishes:
        yield "<h2>Wishes</h2>"
        yield f"<ul>{''.join(f'<li>{escape(wish)}</li>' for wish in asked.wishes)}</ul>"


def tables_of_plan(names, claim, free, asked):
    yield "<h2>Plan</h2>"
    total = "total", ["total", "", names.amount(claim.cost)]
    rows = [("", row) for row in rows_of_pairs(names, claim)] + [("free", [person or "nobody", thing or "stays free", cost]) for person, thing, cost in rows_of_free(names, claim, free)]
    yield table(names.titles, [*rows, total], {2})
    yield f"<h2>By {escape(names.titles[1])}</h2>"
    titles, *turned = by_objects(names, rows_of_plan(names, claim, free))
    last = next(place for place, row in enumerate(turned) if row[:2] == ["total", ""])
    yield table(titles, [*(("" if thing and person else "free", [thing or "stays free", person or "nobody", cost]) for thing, person, cost in turned[:last]), total], {2})
    if asked.changes:
        yield from tables_of_changes(names, claim, asked.changes)


def tables_of_changes(names, claim, changes):
    """What comes and what goes, and what that costs."""
    new, gone = changes.of_plan(rows_of_pairs(names, claim))
    each = names._replace(maximise=False).amount(changes.cost)
    yield "<h2>Changes</h2>"
    yield f"<p>{counted(len(new), 'pair')} that the old plan doesn't have, at {escape(each)} each, which the total has in it.</p>"
    rows = [("", [person, thing, "new"]) for person, thing in new] + [("free", [person, thing, "before"]) for person, thing in sorted(gone)]
    yield table([*names.titles[:2], ""], rows, set())


def tables_of_hall(names, claim):
    persons, objects = blamed(names, claim)
    yield "<h2>In the way of a plan</h2>"
    yield table(names.titles[:1], [("", [name]) for name in dict.fromkeys(map(names.person, persons))], set())
    yield table(names.titles[1:2], [("", [names.object(number)]) for number in objects], set())


def table_of_prices(names, claim, asked, prices):
    yield "<h2>Prices</h2>"
    told = "These prices show how far the plan is from the best at most"
    if claim.kind != "bracket":
        told = f"At these prices everybody has what is best for him{among(names, asked)}: cost and price together"
    yield f"<p>{told}. They are in the unit of costs.</p>"
    amount = names._replace(maximise=False).amount
    rows = [("", [name, amount(price)]) for name, price in zip(names.objects, prices)]
    yield table([names.titles[1], "price"], rows, {1})


def table(titles, rows, numbers):
    """A table; of some columns, by their places, the cells are numbers."""
    def cells(tag, texts):
        shown = (f'<button type="button">{escape(text)}</button>' if tag == "th" else escape(text) for text in texts)
        return "".join(f'<{tag}{" class=number" if place in numbers else ""}>{text}</{tag}>' for place, text in enumerate(shown))
    body = "\n".join(f'<tr{f" class={kind}" if kind else ""}>{cells("td", texts)}</tr>' for kind, texts in rows)
    return f"<table><thead><tr>{cells('th', titles)}</tr></thead><tbody>\n{body}\n</tbody></table>"
