"""Why a person has this object and not that, told from the prices of a plan in the units of its table."""
from .faults import Fault
from .margins import detours_of, margins_of
from .names_told import unknown
from .prices import told_prices


def rows_of_reasons(names, problem, model, claim, name):
    """The rows that tell why a person has his objects: each object that he may take, and what is against it."""
    if name not in problem.persons:
        raise Fault(f"--why {name}: {unknown('person', name, problem.persons)}")
    place = problem.persons.index(name)
    mine = {copy for copy, owner in enumerate(model.owners, 1) if owner == place}
    prices = told_prices(model.rows(), claim, model.persons())
    holders = {thing: names.person(copy) for copy, (thing, _) in zip(range(1, len(names.persons) + 1), claim.picks)}
    own = {claim.picks[copy - 1][0] for copy in mine}
    unsigned = names._replace(maximise=False)
    rows, best = [], {}
    detours = detours_of(model.rows(), claim)
    for row in filter(lambda row: row[0] in mine, model.rows()):
        for margin in margins_of(row, claim, detours):
            thing, cost = margin.arc
            key = thing if thing <= model.objects else None
            worse = 0 if thing in own else margin.margin
            value = cost + prices[thing - 1]
            if key not in best or (thing in own, -value) > (best[key][0] in own, -best[key][2]):
                best[key] = thing, cost, value, worse
    for key, (thing, cost, value, worse) in sorted(best.items(), key=lambda item: (item[1][0] not in own, item[1][2])):
        told = "any" if worse is None else unsigned.amount(worse)
        amounts = [names.amount(cost), unsigned.amount(prices[thing - 1]), names.amount(value)]
        rows.append([names.object(thing) or "stays free", *amounts, "" if thing in own else told, holders.get(thing, "") if key else ""])
    has = [names.object(thing) or "no object" for thing in sorted(own)]
    return [[*names.titles[1:], "price", "together", "worse by", "who has it"], *rows, [sentence(names, name, has)]]


def sentence(names, name, has):
    """What the rows say."""
    best, worse = "least, with its price", "costs at least `worse by` more"
    if names.maximise:
        best, worse = "most, less its price", "brings at least `worse by` less"
    listed = " and ".join(has) if has else "nothing, since the capacity is 0"
    other = f"Any plan that gives {name} another one of these rows {worse}."
    return f"{name} has {listed}: at these prices everybody has what is {best}. {other}"
