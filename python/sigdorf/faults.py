"""What a call raises."""

# A sentence names so many rows or columns.
MOST_NAMED = 10


def note(fault, words):
    """Adds a note to an exception, as add_note does, which Python 3.10 lacks."""
    fault.__notes__ = [*getattr(fault, "__notes__", ()), words]


class Infeasible(ValueError):
    """There is no full assignment: the entries of these rows lead to just these columns, which are fewer.

    `rows` and `columns` are arrays of indices, rising. Where there are more rows than columns it is the other way round: the entries of
    these columns lead to just these rows, which are fewer, and `by_columns` is True. `labels` are the names of these rows and of these
    columns, where the problem was a table that has names, and else None.

    >>> sigdorf.solve([0, 1], [0, 0], [5, 6], (2, 2))
    Traceback (most recent call last):
        ...
    sigdorf.faults.Infeasible: no full assignment exists: 2 rows have entries in only 1 column (rows 0, 1; column 0)
    """

    def __init__(self, rows, columns, by_columns=False, words="no full assignment exists", labels=None):
        # What an exception is made of anew, as where one process sends it to another, are its arguments.
        super().__init__(rows, columns, by_columns, words, labels)
        self.rows, self.columns, self.by_columns, self.words, self.labels = rows, columns, by_columns, words, labels

    def __str__(self):
        rows, columns = self.labels or (self.rows, self.columns)
        some, few = (("column", columns), ("row", rows)) if self.by_columns else (("row", rows), ("column", columns))
        have = "has" if len(some[1]) == 1 else "have"
        return f"{self.words}: {_counted(*some)} {have} entries in only {_counted(*few)} ({_listed(*some)}; {_listed(*few)})"


def _counted(name, some):
    return f"{len(some)} {name}{'' if len(some) == 1 else 's'}"


def _listed(name, some):
    """The first of these rows or columns."""
    if not len(some):
        return f"no {name}"
    more = f" and {len(some) - MOST_NAMED} more" if len(some) > MOST_NAMED else ""
    return f"{name}{'' if len(some) == 1 else 's'} {', '.join(map(str, some[:MOST_NAMED]))}{more}"


class Mistyped(TypeError, ValueError):
    """An argument is of a type that isn't taken: a TypeError, as SciPy raises, and a ValueError, as the other faults of arguments here.

    >>> sigdorf.linear_sum_assignment([["1"]])
    Traceback (most recent call last):
        ...
    sigdorf.faults.Mistyped: Cannot cast array data from dtype('<U1') to dtype('float64') according to the rule 'safe'
    """


class Refused(ValueError):
    """A solution doesn't hold of a problem: the message says why.

    >>> sigdorf.certify([0, 0], [0, 1], [[1, 2], [1, 4]])
    Traceback (most recent call last):
        ...
    sigdorf.faults.Refused: row 0 appears 2 times
    """


class Unsettled(RuntimeError):
    """A limit ended the search before the least cost (or the most) was found.

    `solution` is what the search came to: a full assignment, its cost, and the bound that none is better than. It is no ValueError: those who
    take that for a problem without an assignment would be wrong here. `limit` is which limit it was: bids or seconds.

    >>> inf = float("inf")
    >>> try:
    ...     sigdorf.linear_sum_assignment([[1, 2, inf], [1, 4, 9], [inf, 3, 7]], bids=0)
    ... except sigdorf.Unsettled as fault:
    ...     print(fault.solution.bound <= 10 <= fault.solution.cost)
    True
    """

    def __init__(self, solution, limit="bids"):
        super().__init__(solution, limit)
        self.solution, self.limit = solution, limit

    def __str__(self):
        cost, bound = self.solution.cost, self.solution.bound
        return f"a limit ended the search: an assignment of cost {cost} was found, and none is better than {bound}; more {self.limit}= may settle it"
