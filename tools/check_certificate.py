#!/usr/bin/env python3
"""Says whether a certificate is true of a problem, in plain whole numbers: written from docs/FORMATS.md alone, with the line and status of `auction check`."""
import argparse, itertools, os, re, signal, sys
PERSONS, OBJECTS, LARGE, MOST_ARCS = range(1, 10_001), range(1, 20_001), range(1, 4_194_305), {False: 33_554_432, True: 268_435_456}
REASONS, COSTS, PRICES, TOTALS = "(?:bids|ceiling|posts|trail|mail)", range(-(10**9), 10**9 + 1), range(0, 2**61 + 1), range(-(2**63), 2**63)

def must(holds, line, *numbers):  # where something doesn't hold, the reading ends with the line that tells this fault
    if not holds:
        raise ValueError(line.format(*numbers))

def number_at(place, token, wanted, line, arc=None):
    """The number of the token at a place of the problem: one that spells a number, in whatever way, and one of those wanted; a line tells of which arc it isn't."""
    digits = token
    if not digits.isdigit() or len(digits) > 30:
        must(token, "refused cut {}" if place else "refused empty", place)
        must(found := re.fullmatch(rb"([+-]?)0*([0-9]+?)(\.0*)?", digits), "refused number {}", place + 1)
        digits = found[1] + found[2][:30]  # a longer number is out of every range, and so are its first thirty digits
    value = int(digits)
    must(value in wanted, line, arc)
    return value

def read_problem(text, objects=None, large=False):
    """The arcs of each person, as pairs of an object and a cost, and the number of objects: where none is given, as many as persons."""
    tokens = (found[0] for found in re.finditer(rb"[^\t-\r\x1a ]+", text))  # one by one: all at once take more memory than the arcs
    persons = number_at(0, next(tokens, b""), LARGE if large else PERSONS, "refused count")
    must(persons <= (objects := objects or persons), "refused objects")
    all_persons, all_objects = range(1, persons + 1), range(1, objects + 1)
    arcs = {person: [] for person in all_persons}
    for arc, token in enumerate(tokens, 1):
        must(arc <= MOST_ARCS[large], "refused arcs")
        person = number_at(3 * arc - 2, token, all_persons, "refused person {}", arc)
        thing = number_at(3 * arc - 1, next(tokens, b""), all_objects, "refused object {}", arc)
        arcs[person].append((thing, number_at(3 * arc, next(tokens, b""), COSTS, "refused cost {}", arc)))
    return arcs, objects

def read_claim(text, large=False):
    """A claim: its kind, the numbers that a verdict tells of it, and its two lists: persons and objects, or picks and prices."""
    places, lines = itertools.count(1), text.decode("latin-1").split("\n")
    def take(spelling, *ranges):  # the numbers of the next line: for each # of its spelling one, out of its range
        place = next(places)
        found = place < len(lines) and re.fullmatch(spelling.replace("#", "(0|-?[1-9][0-9]{0,18})"), lines[place - 1])
        must(found and all(int(number) in wanted for number, wanted in zip(found.groups(), ranges)), f"refused certificate {place}")
        return list(map(int, found.groups()))
    def take_rising(spelling, count, last):  # a number a line: above the one before, with room for those behind; the last in its range
        numbers = [0]
        for behind in reversed(range(count)):
            numbers += take(spelling, range(max(numbers[-1] + 1, 1 if behind else last[0]), last[-1] - behind + 1))
        return numbers[1:]
    version = take("auction #", range(1, 4 if large else 3))[0]
    persons, objects = [(PERSONS, PERSONS), (PERSONS, OBJECTS), (LARGE, LARGE)][version - 1]  # those that this version may name
    more = 1 if version == 2 else 0  # it alone wants more objects than persons, and of a Hall set one that version 1 can't name
    kind = "".join(lines[1:2]).split(" ")[0]
    if kind == "infeasible":
        numbers = take("infeasible # #", persons, range(more, persons[-1] + 1))
        lists = take_rising("person #", numbers[0], persons), take_rising("object #", numbers[1], objects[10_000 * more :])
    else:
        start, totals = (f"bracket {REASONS}", [TOTALS, TOTALS]) if kind == "bracket" else ("optimal", [TOTALS])
        sizes = [persons, objects][:version]  # version 1 tells but one count, since it has as many prices as picks
        told = take(start + " #" * len(sizes + totals), *sizes, *totals)
        counts, numbers = told[: len(sizes)], told[len(sizes) :]
        must(counts[0] + more <= counts[-1], "refused certificate 2")
        picks = [tuple(take("assign # # #", [person], objects, COSTS)[1:]) for person in range(1, counts[0] + 1)]
        lists = picks, [take("price # #", [thing], PRICES)[1] for thing in range(1, counts[-1] + 1)]
    must(lines[(last := next(places)) - 1 :] == [""], f"refused certificate {last}")
    return kind, numbers, *lists

def faults_of_hall(arcs, count, persons, objects):
    """All arcs of the persons lead to the objects, and those are fewer: so one of the persons goes without."""
    reached = {thing for person in persons for thing, _ in arcs.get(person, [(0, 0)])}  # who isn't there reaches what isn't there
    yield from ["invalid hall"] * (len(objects) >= len(persons) or max(objects, default=0) > count or not reached <= set(objects))

def faults_of_plan(arcs, count, kind, numbers, picks, prices):
    """The picks are an assignment of the cost claimed. No assignment pays more than all prices, so none costs less than the least values, less all prices."""
    if (len(picks), len(prices)) != (len(arcs), count):
        yield "invalid size"
    yield from (f"invalid arc {person}" for person, pick in enumerate(picks, 1) if pick not in arcs[person])
    holder = {}
    yield from (f"invalid twice {thing}" for person, (thing, _) in enumerate(picks, 1) if holder.setdefault(thing, person) != person)
    yield from ["invalid cost"] * (sum(cost for _, cost in picks) != numbers[-1])
    value = lambda arc: (len(arcs) + 1) * arc[1] + prices[arc[0] - 1]
    least = {person: min(map(value, arcs[person])) for person in arcs}
    if kind == "bracket":
        return (yield from ["invalid bound"] * (numbers[0] != -((sum(prices) - sum(least.values())) // (len(arcs) + 1))))  # rounded up
    yield from (f"invalid slack {person}" for person, pick in enumerate(picks, 1) if value(pick) > least[person] + 1)
    yield from (f"invalid leftover {thing}" for thing, price in enumerate(prices, 1) if thing not in holder and price)

def main():
    parser = argparse.ArgumentParser(description=__doc__)
    told = os.path.join(os.path.dirname(os.path.realpath(__file__)), "..", "VERSION")  # of the clone, or of where it is installed
    version = open(told).read().strip() if os.path.exists(told) else "of unknown version"
    parser.add_argument("--version", action="version", version=f"%(prog)s {version} (Sigdorf)", help="show the version and exit")
    parser.add_argument("arcs", metavar="ARCS")
    parser.add_argument("certificate", metavar="CERTIFICATE", nargs="?", default=0, help="left out, it is standard input")
    parser.add_argument("--objects", metavar="M", type=int, help="1 to 20,000, with --large to 4,194,304; left out, as many as persons")
    parser.add_argument("--large", action="store_true", help="take up to 4,194,304 persons and objects, and 268,435,456 arcs")
    words = parser.parse_intermixed_args()
    if words.objects is not None and words.objects not in (LARGE if words.large else OBJECTS):
        parser.error(f"argument --objects: it is out of its range: {words.objects}")
    try:
        problem, certificate = (os.open(name, os.O_RDONLY) if name != 0 else 0 for name in (words.arcs, words.certificate))
        arcs, objects = read_problem(open(problem, "rb").read(), words.objects, words.large)
        kind, numbers, *lists = read_claim(open(certificate, "rb").read(), words.large)
        faults = faults_of_hall(arcs, objects, *lists) if kind == "infeasible" else faults_of_plan(arcs, objects, kind, numbers, *lists)
        line = next(faults, " ".join(map(str, ["valid", kind, *numbers])))
    except (OSError, ValueError) as fault:
        if isinstance(getattr(fault, "filename", None), str):  # a file that can't be opened; one that can't be read has a number
            return print(f"{parser.prog}: {fault.filename}: it can't be opened: {fault.strerror}", file=sys.stderr) or 5
        line = "refused read" if isinstance(fault, OSError) else str(fault)
    return print(line) or {"valid": 0, "invalid": 3, "refused": 5}[line.split()[0]]

if __name__ == "__main__":
    for number in (signal.SIGINT, signal.SIGPIPE):  # Ctrl-C ends it without a word, and so does a reader that goes away
        signal.signal(number, signal.SIG_DFL)
    sys.exit(main())
