"""One random call of the package, by a seed: its outcome in a word. What it must not do is an exception."""
import random
import warnings

import exact
import guises
import numpy
import sigdorf

try:
    import scipy.optimize
    import scipy.sparse
except ImportError:
    scipy = None

MOST_BIDS = 100_000
FORMATS = ("coo", "csr", "csc", "lil", "dok", "bsr", "dia")


class Problem:
    """Entries with costs in whole units, 10^decimals of which are one of the caller's costs; and what the least of all assignments is."""

    def __init__(self, source):
        self.shape = source.randrange(6), source.randrange(7)
        count = source.randrange(14) if min(self.shape) else 0
        most = source.choice([1, 9, 1000, 10**9])
        self.entries = [(source.randrange(self.shape[0]), source.randrange(self.shape[1]), source.randint(-most, most)) for _ in range(count)]
        self.decimals = source.choice([0, 0, 0, 1, 2, 9])
        self.maximize = source.random() < 0.5
        self.least = exact.least_cost(self.entries, self.shape, self.maximize)

    def lists(self, source):
        """Rows, columns and costs, in some guise."""
        rows, columns, units = zip(*self.entries) if self.entries else ((), (), ())
        sides = [guises.same(source, side, guises.INTEGERS) for side in (rows, columns)]
        if self.decimals:
            return [*sides, guises.same(source, [unit / 10**self.decimals for unit in units], ("f8", ">f8"))]
        return [*sides, guises.same(source, units, guises.INTEGERS + guises.FLOATS)]

    def words(self, source):
        """The words of a call; those that may be left out sometimes are."""
        words = {"maximize": source.choice([self.maximize, numpy.bool_(self.maximize), int(self.maximize)]), "decimals": source.choice([int, numpy.int64, numpy.uint8])(self.decimals)}
        return {name: value for name, value in words.items() if value or source.random() < 0.5}


def calls(seed):
    """A call with arguments in any guise, of which some are at fault."""
    source = random.Random(seed)
    with warnings.catch_warnings():
        warnings.simplefilter("error" if source.random() < 0.5 else "ignore")
        warnings.simplefilter("ignore", PendingDeprecationWarning)
        warnings.filterwarnings("ignore", "explicit zero")
        call = source.choice([call_solve, call_solve, call_check, call_matrix, call_sparse, call_restricted, call_match])
        with numpy.errstate(all=source.choice(["raise", "ignore", "warn"])):
            return call(source, Problem(source))


def outcome_of(call, *arguments, **words):
    """What a call answers and a word for it; any exception but those that its page names is one here."""
    try:
        return call(*arguments, **words), "answered"
    except (sigdorf.Infeasible, sigdorf.Refused, sigdorf.Unsettled) as fault:
        return fault, f"raised {type(fault).__name__}"
    except ValueError as fault:
        assert type(fault) in (ValueError, sigdorf.Mistyped) and str(fault), fault
        return fault, "raised ValueError"


def call_solve(source, problem):
    given, words = problem.lists(source), problem.words(source)
    given.append(problem.shape)
    words["bids"] = source.choice([0, 1, 50, MOST_BIDS, numpy.int32(MOST_BIDS)])
    if source.random() < 0.2:
        words["start"] = guises.same(source, [source.randrange(2**60) for _ in range(max(problem.shape))], ("i8", "u8"))
    is_odd = source.random() < 0.6
    for _ in range(source.choice([1, 1, 2, 3]) if is_odd else 0):
        spoil(source, given, words, problem)
    found, outcome = outcome_of(sigdorf.solve, *given, **words)
    if outcome == "answered":
        assert_checked(found, given, words)
    if not is_odd:
        assert_right(problem, found, outcome)
    return f"solve {outcome}"


def spoil(source, given, words, problem):
    """Puts something odd in place of an argument."""
    place = source.randrange(7)
    if place < 3:
        given[place] = guises.odd(source, [entry[place] for entry in problem.entries])
    elif place == 3:
        given[3] = guises.odd_shape(source, problem.shape)
    elif place == 4:
        words["start"] = guises.odd(source, [source.randrange(100) for _ in range(problem.shape[0])])
    else:
        words[source.choice(["maximize", "decimals"] + ["bids"] * ("bids" in words))] = source.choice([*guises.ODD_NUMBERS, guises.Broken()])


def assert_checked(found, given, words):
    """What is called least passes a check of the same arguments, and what isn't doesn't. Where a limit has ended the search at the least cost, its bound shows that, but no check by each price."""
    words = {name: word for name, word in words.items() if name not in ("bids", "start")}
    fault, outcome = outcome_of(sigdorf.check, found, *given, **words)
    if found.is_optimal:
        assert outcome == "answered" or "better entry" in str(fault), fault
    else:
        assert outcome == "raised Refused", outcome


def assert_right(problem, found, outcome):
    """An answer to arguments without a fault is what all assignments say."""
    if problem.least is None:
        assert outcome == "raised Infeasible", outcome
        return
    assert outcome == "answered", found
    sign, cost, bound = -1 if problem.maximize else 1, *(round(amount * 10**problem.decimals) for amount in (found.cost, found.bound))
    assert sign * bound <= sign * problem.least <= sign * cost
    assert not found.is_optimal or cost == problem.least
    pairs = [problem.entries[entry] for entry in found.entries]
    assert [pair[:2] for pair in pairs] == list(zip(found.rows.tolist(), found.columns.tolist())) and sum(pair[2] for pair in pairs) == cost
    assert len(set(found.rows)) == len(set(found.columns)) == min(problem.shape)


def call_check(source, problem):
    given, words = problem.lists(source), problem.words(source)
    given.append(problem.shape)
    claim, outcome = outcome_of(sigdorf.solve, *given, **words, bids=source.choice([0, MOST_BIDS, MOST_BIDS]))
    if outcome != "answered":
        claim = sigdorf.Solution([0], [0], [0], 0, 0, [0], 2)
    for _ in range(source.choice([0, 1, 1, 2, 3])):
        name = source.choice(sigdorf.Solution._fields)
        claim = claim._replace(**{name: odd_part(source, name, getattr(claim, name))})
    if source.random() < 0.05:
        claim = source.choice([None, (), claim[:6], guises.Broken(), 5])
    is_odd = source.random() < 0.3
    if is_odd:
        spoil(source, given, words, problem)
        words.pop("start", None)
    _, outcome = outcome_of(sigdorf.check, claim, *given, **words)
    if outcome == "answered" and not is_odd:
        assert problem.least is not None and round(claim.cost * 10**problem.decimals) == problem.least
    return f"check {outcome}"


def odd_part(source, name, part):
    """Another value in place of a part of a solution."""
    if name in ("cost", "bound", "scale", "exact_cost", "gap"):
        return source.choice([*guises.ODD_NUMBERS, guises.Broken(), -2])
    is_list = isinstance(part, list) or isinstance(part, numpy.ndarray) and part.ndim > 0
    numbers = [number for number in part[:9] if isinstance(number, (int, numpy.integer)) and not isinstance(number, numpy.timedelta64)] if is_list else [0]
    if source.random() < 0.2:
        return guises.same(source, [int(number) for number in numbers], guises.INTEGERS)
    if source.random() < 0.2:
        return source.sample(numbers, len(numbers))
    return guises.odd(source, numbers)


def call_restricted(source, problem):
    """With pairs, capacities and starts in any guise."""
    given, words = [*problem.lists(source), problem.shape], problem.words(source)
    places = [source.randrange(3) for _ in range(source.randrange(5))]
    for name in source.sample(["forced", "forbidden", "capacity", "missing", "start"], source.choice([1, 1, 2])):
        pairs = [(source.randrange(4), source.randrange(4)) for _ in range(source.randrange(3))]
        right = {"capacity": places, "start": sigdorf.solve(numpy.ones(problem.shape))}
        words[name] = guises.odd(source, places) if source.random() < 0.4 else right.get(name, pairs)
    found, outcome = outcome_of(sigdorf.solve, *given, **words)
    if outcome == "answered":
        words.pop("start", None)
        sigdorf.check(found, *given, **words)
    return f"restricted {outcome}"


def call_match(source, problem):
    """With limits in any guise, of a table, a list or Edges."""
    matrix = dense_of(problem)
    limits = [source.randint(-9, 9) for _ in range(source.choice([problem.shape[0], 3]))]
    limits = guises.odd(source, limits) if source.random() < 0.5 else guises.same(source, limits, guises.INTEGERS)
    words = {"maximize": problem.maximize} | ({"column_limit": guises.odd(source, [3, 5, 9])} if source.random() < 0.3 else {})
    kind = source.randrange(5)
    if kind == 4:
        found, outcome = outcome_of(sigdorf.match_many, [matrix] * 3, [limits, 5, limits], maximize=problem.maximize)
        assert outcome != "answered" or found[1] == sigdorf.match(matrix, 5, maximize=problem.maximize)
        return f"match_many {outcome}"
    if kind == 0:
        return f"max_cardinality_match {outcome_of(sigdorf.max_cardinality_match, matrix, maximize=problem.maximize)[1]}"
    if kind == 1:
        edges, outcome = outcome_of(sigdorf.Edges, *(guises.odd(source, [1, 2, 3]) for _ in range(3)))
        return f"Edges {outcome if outcome != 'answered' else outcome_of(sigdorf.solve, edges)[1]}"
    return f"match {outcome_of(sigdorf.match, matrix, limits, **words)[1]}"


def dense_of(problem):
    """The problem as a matrix of whole units, in which what is no entry is infinite; of a pair that stands twice the last entry counts."""
    matrix = numpy.full(problem.shape, -numpy.inf if problem.maximize else numpy.inf)
    for row, column, unit in problem.entries:
        matrix[row, column] = unit
    problem.entries = [(row, column, int(matrix[row, column])) for row, column in zip(*numpy.nonzero(numpy.isfinite(matrix)))]
    problem.least, problem.decimals = exact.least_cost(problem.entries, problem.shape, problem.maximize), 0
    return matrix


def call_matrix(source, problem):
    matrix = dense_of(problem)
    if source.random() < 0.4:
        matrix = source.choice([
            lambda: guises.odd(source, matrix.ravel()[:4]), lambda: matrix.astype(object), lambda: matrix.astype(complex), lambda: numpy.ma.masked_invalid(matrix), lambda: matrix[None],
            lambda: matrix.astype("U5"), lambda: numpy.where(matrix > 0, numpy.nan, matrix), lambda: -matrix, lambda: numpy.broadcast_to(numpy.int8(0), (10**8, 10**8)),
            lambda: [numpy.ma.masked_array(row) for row in matrix], lambda: matrix + 0.25, lambda: numpy.broadcast_to(matrix.ravel()[0], (2, 4_194_305)),
        ])() if matrix.size else guises.odd(source, [1, 2])
        return f"linear_sum_assignment {outcome_of(sigdorf.linear_sum_assignment, matrix, source.choice([problem.maximize, *guises.ODD_NUMBERS]), bids=MOST_BIDS)[1]}"
    kinds = [kind for kind in ("f4", "f8", ">f8", "g") if (matrix.astype(kind) == matrix).all()]
    given = guises.other_layout(source, matrix.astype(source.choice(kinds)))
    given = source.choice([given, given, given.tolist() if given.size else given, numpy.matrix(given) if given.size else given])
    found, outcome = outcome_of(sigdorf.linear_sum_assignment, given, problem.maximize, bids=source.choice([0, 20, MOST_BIDS]))
    assert_pairs(problem, found, outcome)
    return f"linear_sum_assignment {outcome}"


def assert_pairs(problem, found, outcome):
    """Pairs are of least cost; where a limit has ended the search, none are given."""
    if problem.least is None:
        assert outcome == "raised Infeasible", found
    elif outcome == "raised Unsettled":
        sign, solution = -1 if problem.maximize else 1, found.solution
        assert not solution.is_optimal and sign * solution.bound <= sign * problem.least <= sign * solution.cost
    else:
        assert outcome == "answered", found
        costs = {(row, column): unit for row, column, unit in problem.entries}
        assert sum(costs[pair] for pair in zip(*(side.tolist() for side in found))) == problem.least


def call_sparse(source, problem):
    if not scipy or not min(problem.shape):
        return call_matrix(source, problem)
    dense_of(problem)
    rows, columns, units = zip(*problem.entries) if problem.entries else ((), (), ())
    kinds = [kind for kind in (*guises.INTEGERS[2:], "f4", "f8") if guises.holds(kind, units)]
    matrix = scipy.sparse.coo_matrix((numpy.array(units, source.choice(kinds or ["i8"])), (rows, columns)), problem.shape)
    name = source.choice(FORMATS)
    # Other formats lose explicit zeros, or make some.
    if name in ("coo", "csr", "csc") or 0 not in units and name in ("lil", "dok"):
        call = source.choice([sigdorf.min_weight_full_bipartite_matching, sigdorf.linear_sum_assignment])
        if call is sigdorf.min_weight_full_bipartite_matching and 0 in units:
            problem.entries = [entry for entry in problem.entries if entry[2]]
            problem.least = exact.least_cost(problem.entries, problem.shape, problem.maximize)
        found, outcome = outcome_of(call, matrix.asformat(name), problem.maximize, bids=source.choice([0, 20, MOST_BIDS]))
        assert_pairs(problem, found, outcome)
        return f"{call.__name__} {outcome}"
    matrix = spoilt(source, matrix, name)
    outcome = outcome_of(sigdorf.min_weight_full_bipartite_matching, matrix, source.choice([problem.maximize, None, "no"]), bids=MOST_BIDS)[1]
    return f"min_weight_full_bipartite_matching {outcome}"


def spoilt(source, matrix, name):
    """A sparse matrix of another format, or with parts that don't fit."""
    way = source.randrange(6)
    if way == 0:
        matrix.row = guises.odd(source, matrix.row)
    elif way == 1:
        matrix.data = guises.odd(source, matrix.data)
    elif way == 2:
        matrix = matrix.astype(source.choice([complex, bool]))
    elif way == 3:
        matrix = scipy.sparse.coo_matrix((2**31 - 1, source.choice([3, 2**31 - 1])), dtype="i1")
    elif way == 4:
        return matrix.asformat(name)
    return matrix


def answers(seed):
    """A small problem: the cost is the least of all assignments, by either form of call, and SciPy's."""
    source = random.Random(seed)
    shape = source.randint(1, 7), source.randint(1, 8)
    most, density = source.choice([1, 5, 100, 10**6, 10**9]), source.uniform(0.2, 1)
    maximize = source.random() < 0.5
    entries = [(row, column, source.randint(-most, most)) for row in range(shape[0]) for column in range(shape[1]) if source.random() < density]
    least = exact.least_cost(entries, shape, maximize)
    matrix = numpy.full(shape, -numpy.inf if maximize else numpy.inf)
    for row, column, cost in entries:
        matrix[row, column] = cost
    assert not scipy or least == dense_least(matrix, maximize), "SciPy's dense call has another least cost"
    rows, columns, costs = zip(*entries) if entries else ((), (), ())
    found, outcome = outcome_of(sigdorf.solve, rows, columns, costs, shape, maximize=maximize, bids=MOST_BIDS)
    pairs, told = outcome_of(sigdorf.linear_sum_assignment, matrix, maximize, bids=MOST_BIDS)
    if least is None:
        assert outcome == told == "raised Infeasible"
        return "without an assignment"
    assert outcome == "answered", found
    sign = -1 if maximize else 1
    assert sign * found.bound <= sign * least <= sign * found.cost
    assert_checked(found, (rows, columns, costs, shape), {"maximize": maximize})
    if not found.is_optimal:
        assert told == "raised Unsettled", told
        return "ended by a limit, and told"
    assert told == "answered" and found.cost == matrix[pairs].sum() == least
    return "of least cost"


def dense_least(matrix, maximize):
    """The least cost by SciPy's dense call, or None."""
    try:
        return matrix[scipy.optimize.linear_sum_assignment(matrix, maximize)].sum()
    except ValueError:
        return None
