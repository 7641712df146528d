"""One random problem of floats or of great whole numbers, by a seed: its answer is held against all assignments, in Fractions."""
import fractions
import itertools
import random

import exact
import numpy
import sigdorf

try:
    import scipy.optimize
except ImportError:
    scipy = None


def uniform(random, shape):
    return random.random(shape)


def plane(random, shape):
    ours, theirs = (random.random((side, 2)) * 1000 for side in shape)
    return numpy.linalg.norm(ours[:, None] - theirs[None], axis=2)


def grid(random, shape):
    ours, theirs = (random.integers(0, 4, (side, 2)) for side in shape)
    return numpy.linalg.norm(ours[:, None] - theirs[None], axis=2)


def overlap(random, shape):
    """One less what two squares share: mostly 1.0."""
    ours, theirs = (random.random((side, 2)) * 4 for side in shape)
    shared = numpy.clip(1 - abs(ours[:, None] - theirs[None]), 0, None).prod(axis=2)
    return 1 - shared / (2 - shared)


def likeness(random, shape):
    ours, theirs = (random.standard_normal((side, 8)) for side in shape)
    return -(ours / numpy.linalg.norm(ours, axis=1)[:, None] @ (theirs / numpy.linalg.norm(theirs, axis=1)[:, None]).T)


def any_exponents(random, shape):
    return random.random(shape) * 10.0 ** random.integers(-300, 300, shape) * random.choice([-1, 1], shape)


def powers(random, shape):
    return 2.0 ** random.integers(-60, 60, shape)


def denormals(random, shape):
    return random.integers(-50, 50, shape) * 5e-324


def ends(random, shape):
    """The greatest and the least floats side by side."""
    return random.choice([1.7976931348623157e308, -1.7976931348623157e308, 8.98846567431158e307, 5e-324, -5e-324, 0.0, 1.0, 2.2250738585072014e-308], shape)


def mixed(random, shape):
    return random.integers(1, 4, shape) + random.integers(0, 3, shape) * 2.0**-40 + random.integers(0, 3, shape) * 1e-30


def levels(random, shape):
    """Ties at each of four sizes."""
    return sum(random.integers(0, 3, shape) * 2.0**exponent for exponent in (0, -18, -36, -50))


def half_units(random, shape):
    """Ties of what is left beside whole units of 2^-28."""
    return random.integers(0, 5, shape) * 2.0**-29 + random.integers(0, 2, shape)


def ties(random, shape):
    return random.integers(0, 3, shape) / 10


def tenths(random, shape):
    return numpy.round(random.random(shape), 1) * 3


def last_bits(random, shape):
    return 1 + random.integers(0, 4, shape) * 2.0**-52


def potentials(random, shape):
    """Great prices, beside which the differences are next to nothing."""
    return random.random((shape[0], 1)) * 1e6 - random.random((1, shape[1])) * 1e6 + random.integers(0, 2, shape) * 1e-9


def product(random, shape):
    return numpy.outer(numpy.sort(random.random(shape[0])), numpy.sort(random.random(shape[1])))


def gates(random, shape):
    return numpy.where(random.random(shape) < 0.7, random.choice([1e6, 1e9, 1e18]), random.random(shape))


def narrow(random, shape):
    return random.random(shape).astype(random.choice(["f2", "f4"]))


def long_whole(random, shape):
    return random.integers(-(2**62), 2**62, shape)


def long_ties(random, shape):
    return 2**60 + random.integers(0, 4, shape)


def ends_of_int64(random, shape):
    return random.choice(numpy.array([-(2**63), -(2**63) + 1, 2**63 - 1, 2**63 - 2, 0, 1]), shape)


def ends_of_uint64(random, shape):
    return random.choice(numpy.array([0, 1, 2**63, 2**64 - 2, 2**64 - 1], numpy.uint64), shape)


def long_natural(random, shape):
    return random.integers(0, 2**64, shape, dtype=numpy.uint64)


def past_whole(random, shape):
    """Whole numbers just beyond those that the library takes."""
    return 10**9 + random.integers(0, 5, shape)


KINDS = [uniform, plane, grid, overlap, likeness, any_exponents, powers, denormals, ends, mixed, levels, half_units, ties, tenths, last_bits, potentials, product, gates, narrow,
         long_whole, long_ties, ends_of_int64, ends_of_uint64, long_natural, past_whole]


def floats(seed, shape=None):
    """A problem of a few rows and columns, or of this shape: its answer is least of all assignments, and its prices show that."""
    source = random.Random(seed)
    kind, maximize = source.choice(KINDS), source.random() < 0.5
    shape = shape or any_shape(source)
    matrix = kind(numpy.random.default_rng(source.randrange(2**32)), shape)
    # The diagonal stays, so that there is an assignment.
    pairs = [pair for pair in itertools.product(*map(range, shape)) if pair[0] == pair[1] or source.random() < source.choice([0.6, 1, 1])]
    source.shuffle(pairs)
    rows, columns = (numpy.array(side) for side in zip(*pairs))
    lists = rows, columns, matrix[rows, columns], shape
    with numpy.errstate(all=source.choice(["raise", "warn"])):
        solution = sigdorf.solve(*lists, maximize=maximize)
        assert_least(solution, lists, maximize)
        sigdorf.check(solution, *lists, maximize=maximize)
        assert_others_refused(source, solution, lists, maximize)
        assert_as_matrix(solution, lists, matrix, maximize)
    return kind.__name__


def any_shape(source):
    """At most 6 and 8, in any order; often as many rows as columns."""
    rows, columns = source.randint(1, 6), source.randint(1, 8)
    return source.choice([(rows, columns), (columns, rows), (rows, rows)])


def assert_least(solution, lists, maximize):
    """The cost is the least of all assignments, and exactly what the prices make of it."""
    rows, columns, costs, shape = lists
    exactly = [fractions.Fraction(cost) for cost in costs.tolist()]
    entries = list(zip(rows.tolist(), columns.tolist(), exactly))
    pairs = [entries[entry] for entry in solution.entries]
    assert [pair[:2] for pair in pairs] == list(zip(solution.rows.tolist(), solution.columns.tolist()))
    assert len(set(solution.rows.tolist())) == len(set(solution.columns.tolist())) == min(shape)
    least = exact.least_cost(entries, shape, maximize)
    assert solution.exact_cost == sum(pair[2] for pair in pairs) == least and solution.gap == 0 and solution.is_optimal
    assert solution.cost == solution.bound == as_shown(least, costs)
    assert_prices(solution, entries, shape, maximize)


def as_shown(amount, costs):
    if costs.dtype.kind != "f":
        return int(amount)
    try:
        return float(amount)
    except OverflowError:
        return float("inf") if amount > 0 else float("-inf")


def assert_prices(solution, entries, shape, maximize):
    """The best of each row at the prices, less all prices, is the cost."""
    sign, side = -1 if maximize else 1, int(shape[0] > shape[1])
    prices, best = solution.exact_prices(), {}
    assert len(prices) == max(shape)
    for entry in entries:
        mine, taken = entry[side], entry[1 - side]
        value = sign * entry[2] + prices[taken]
        best[mine] = min(best.get(mine, value), value)
    if shape[0] != shape[1]:
        held = set((solution.rows if side else solution.columns).tolist())
        assert min(prices) >= 0 and not any(price for place, price in enumerate(prices) if place not in held)
    assert sum(best.values()) - sum(prices) == sign * solution.exact_cost


def assert_others_refused(source, solution, lists, maximize):
    """What isn't least, or isn't shown to be, doesn't pass."""
    rows, columns, costs, shape = lists
    places = {(row, column): place for place, (row, column) in enumerate(zip(rows.tolist(), columns.tolist()))}
    other = source.sample(solution.columns.tolist(), len(solution.columns))
    entries = [places.get(pair) for pair in zip(solution.rows.tolist(), other)]
    if None not in entries:
        total = sum(fractions.Fraction(costs[entry].item()) for entry in entries)
        shown, prices = as_shown(total, costs), [int(price * solution.scale) for price in solution.exact_prices()]
        parts = {"columns": other, "entries": entries, "prices": prices, "costs": costs[entries]}
        claim = solution._replace(cost=shown, bound=shown, exact_cost=total, **parts)
        assert passes(claim, lists, maximize) == (total == solution.exact_cost), "another assignment"
    wrong = solution.prices.astype(object)
    wrong[source.randrange(len(wrong))] += solution.scale * source.choice([-1, 1]) * source.choice([1, 10**6])
    claim = solution._replace(prices=wrong)
    if passes(claim, lists, maximize):
        assert_prices(claim, [(row, column, fractions.Fraction(cost)) for row, column, cost in zip(rows.tolist(), columns.tolist(), costs.tolist())], shape, maximize)


def passes(claim, lists, maximize):
    try:
        sigdorf.check(claim, *lists, maximize=maximize)
    except sigdorf.Refused:
        return False
    return True


def assert_as_matrix(solution, lists, matrix, maximize):
    """The calls of SciPy's names answer as much; SciPy's own not less."""
    rows, columns, costs, shape = lists
    if costs.dtype.kind != "f" and len(rows) < matrix.size:
        return
    dense = matrix
    if costs.dtype.kind == "f":
        dense = numpy.full(shape, -numpy.inf if maximize else numpy.inf, matrix.dtype)
        dense[rows, columns] = costs
    found = dense[sigdorf.linear_sum_assignment(dense, maximize)]
    assert sum(map(fractions.Fraction, found.tolist())) == solution.exact_cost
    other = sum(map(fractions.Fraction, dense[others(dense, maximize)].tolist()))
    assert (other <= solution.exact_cost) if maximize else (other >= solution.exact_cost)


def others(dense, maximize):
    """SciPy's pairs; where it is not there, or its sums run over, the package's."""
    try:
        return scipy.optimize.linear_sum_assignment(dense, maximize)
    except (AttributeError, ValueError):
        return sigdorf.linear_sum_assignment(dense, maximize)


def greater(seed):
    """A problem of a few dozen rows and columns: its answer passes the check, and SciPy's costs no less."""
    source = random.Random(seed)
    kind, maximize = source.choice(KINDS), source.random() < 0.5
    shape = source.randint(8, 44), source.randint(8, 44)
    shape = shape if source.random() < 0.5 else (shape[0], shape[0])
    matrix = kind(numpy.random.default_rng(source.randrange(2**32)), shape)
    rows, columns = numpy.indices(shape).reshape(2, -1)
    lists = rows, columns, matrix.ravel(), shape
    solution = sigdorf.solve(*lists, maximize=maximize)
    sigdorf.check(solution, *lists, maximize=maximize)
    assert_prices(solution, [(row, column, fractions.Fraction(cost)) for row, column, cost in zip(rows.tolist(), columns.tolist(), matrix.ravel().tolist())], shape, maximize)
    assert_as_matrix(solution, lists, matrix, maximize)
    return kind.__name__
