"""The lines of an arc file from arrays, thousands by one call: texts of numbers are looked up in tables, put side by side with zero bytes where they are short, and these are left out at the end."""
import itertools

# So many arcs become lines by one call: they stay in the processor's cache.
BATCH = 20_000
# A cost is written as two texts: what is left of it without its last four digits, and these.
TAIL = 10_000


def lines_of(numbered):
    """The lines of persons, who come with their numbers and `ArrayArcs`, in pieces."""
    import numpy
    rows = [(person, arcs) for person, arcs in numbered if arcs.count()]
    if not rows:
        return
    least, most = (end(int(arcs.units.max() if end is max else arcs.units.min()) for _, arcs in rows) for end in (min, max))
    heads, tails = texts_of_costs(numpy, max(-least, most))
    has_heads = least < 0 or most >= TAIL
    objects = texts(numpy, (f"{number} " for number in range(max(int(arcs.numbers.max()) for _, arcs in rows) + 1)), 8)
    kinds = [("person", "<u8"), ("object", "<u8"), *([("head", heads.dtype)] if has_heads else []), ("tail", "<u4")]
    for batch in batches(rows):
        counts = [arcs.count() for _, arcs in batch]
        lines = numpy.empty(sum(counts), kinds)
        # Each line begins with the end of the line before it: so it takes no more than these bytes.
        lines["person"] = numpy.repeat(texts(numpy, (f"\n{person} " for person, _ in batch), 8), counts)
        lines["object"] = objects[numpy.concatenate([arcs.numbers for _, arcs in batch])]
        costs = numpy.concatenate([arcs.units for _, arcs in batch])
        if has_heads:
            sizes = numpy.abs(costs)
            head = sizes // TAIL
            lines["head"] = heads[2 * head + (costs < 0)]
            lines["tail"] = tails[sizes - TAIL * head + TAIL * (head > 0)]
        else:
            lines["tail"] = tails[costs]
        yield (lines.tobytes().translate(None, b"\0")[1:] + b"\n").decode("ascii")


def batches(rows):
    """The rows in lists of so many arcs, or a little more."""
    batch, count = [], 0
    for row in rows:
        batch.append(row)
        count += row[1].count()
        if count >= BATCH:
            yield batch
            batch, count = [], 0
    if count:
        yield batch


def texts(numpy, words, size):
    """Words as numbers of so many bytes, which are theirs behind zeros."""
    return numpy.frombuffer("".join(word.rjust(size, "\0") for word in words).encode("ascii"), f"<u{size}")


def texts_of_costs(numpy, most):
    """The texts of what is left of costs without their last four digits, positive and negative in turn, and of these digits, first without and then with zeros in front."""
    heads = itertools.chain.from_iterable((f"{head or ''}", f"-{head or ''}") for head in range(most // TAIL + 1))
    tails = itertools.chain((f"{tail}" for tail in range(TAIL)), (f"{tail:04}" for tail in range(TAIL)))
    return texts(numpy, heads, 4 if most < 1_000 * TAIL else 8), texts(numpy, tails, 4)
