"""Prices as a planner is told them, the same ones in tables of reasons, on pages and in pictures: in whole smallest
units of the table."""


def told_prices(rows, claim, persons):
    """The price of each object, by the rows of all persons: a number, the objects and the costs. Where nothing is left
    over only differences of prices say something, so that the least one counts as nothing."""
    if claim.kind == "infeasible":
        return []
    # Prices of a search that was stopped are only rounded down: somebody may like another object better by more than 1.
    bettered = bettered_objects(rows, claim, persons + 1) if claim.kind == "optimal" else ()
    prices = whole_prices(claim.prices, persons, bettered)
    least = min(prices) if len(prices) == persons else 0
    return [price - least for price in prices]


def whole_prices(prices, persons, bettered):
    """Prices in smallest units at which each person has what is least for him, from those on the scale of persons +
    1, at which he may be off by 1 for the objects that are bettered so.

    Each price is rounded down once all are raised by so much that none of these is just below a whole one: then what
    was 1 better isn't better at all. They are raised by less than a whole unit, so that what is left over stays at 0.
    There is such an amount, since fewer remainders occur than there are: not all objects that somebody has are
    bettered, or there would be a ring of persons who would each rather have the object of the next, and costs around
    it, which are whole, would fall by less than a unit.
    """
    scale = persons + 1
    found = {prices[thing - 1] % scale for thing in bettered}
    raised = next(amount for amount in range(scale) if (persons - amount) % scale not in found)
    return [(price + raised) // scale for price in prices]


def bettered_objects(rows, claim, scale):
    """The objects that somebody would have for 1 less than his own."""
    found = set()
    for person, objects, costs in rows:
        own, paid = claim.picks[person - 1]
        values = [scale * cost + claim.prices[thing - 1] for thing, cost in zip(objects, costs)]
        best = min(values, default=0)
        if best < scale * paid + claim.prices[own - 1]:
            found |= {thing for thing, value in zip(objects, values) if value == best}
    return found
