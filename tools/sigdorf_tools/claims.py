"""Certificates that are true of a problem, by the checker of this folder."""
import pathlib
import sys
from typing import NamedTuple

from .faults import Fault

sys.path.append(str(pathlib.Path(__file__).resolve().parents[1]))
import check_certificate  # noqa: E402

REFUSED = {
    "empty": "it is empty",
    "count": "the number of persons is out of range",
    "objects": "it has more persons than objects",
    "arcs": "it has too many arcs",
}
INVALID = {
    "size": "it is of another number of persons or objects",
    "arc": "person {0} has no arc to the object of his pick at that cost",
    "twice": "object {0} is picked twice",
    "cost": "its picks cost another sum",
    "slack": "person {0} has a better arc at its prices",
    "leftover": "nobody takes object {0}, and it has a price",
    "hall": "the persons that it names may take other objects, or as many",
    "bound": "its bound isn't the one of its prices",
}


class Claim(NamedTuple):
    """What a certificate says. Picks and prices are of a plan, persons and objects of a Hall set; the lower bound is the cost where the claim is optimal. Of a Hall set that is told as it is, and not by
    what is beside it, the last field says whether it tells of objects that too few can take."""

    kind: str
    picks: list
    prices: list
    lower: int
    cost: int
    persons: list
    objects: list
    by_objects: bool | None = None


def read_arcs(file, text, objects=None):
    """The arcs of each person, as pairs of object and cost, of a problem with so many objects; where no number is given, as many as persons."""
    try:
        return check_certificate.read_problem(text, objects)[0]
    except ValueError as fault:
        _, what, *place = str(fault).split()
        raise Fault(f"{file}: no problem that the solver takes: {REFUSED.get(what) or ' '.join(['fault', what, *place])}") from None


def read_claim(file, text, arcs, objects, problem):
    """The claim of a certificate's text. One that isn't true of the problem with these arcs and so many objects, whose name is given, is a fault."""
    try:
        kind, numbers, first, second = check_certificate.read_claim(text)
    except ValueError as fault:
        raise Fault(f"{file}, line {str(fault).split()[-1]}: no certificate that `auction solve` writes") from None
    if kind == "infeasible":
        faults = check_certificate.faults_of_hall(arcs, objects, first, second)
    else:
        faults = check_certificate.faults_of_plan(arcs, objects, kind, numbers, first, second)
    for fault in faults:
        _, what, *place = fault.split()
        raise Fault(f"{file}: it isn't true of {problem}, so it may be of another problem: {INVALID[what].format(*place)}")
    return told(kind, numbers, first, second)


def claim_of(certificate):
    """The claim of a certificate that somebody else has judged."""
    return told(*check_certificate.read_claim(certificate))


def with_all_persons(claim, rows):
    """A Hall set with all persons who may take nothing but its objects, so that each other person may take another one. The rows are those of all persons in turn: a number and the objects."""
    inside = set(claim.objects)
    return claim._replace(persons=[person for person, objects in rows if inside.issuperset(objects)])


def told(kind, numbers, first, second):
    if kind == "infeasible":
        return Claim(kind, [], [], None, None, first, second)
    return Claim(kind, first, second, numbers[0], numbers[-1], [], [])
