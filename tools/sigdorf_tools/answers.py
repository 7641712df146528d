"""An answer to look at: a problem, a certificate that is true of it, and the names of both."""
import argparse
from typing import NamedTuple

from .claims import Claim, read_arcs, read_claim
from .faults import Fault, read_bytes
from .names import Names, plain_names, read_names
from .plans import claim_told
from .problems import MOST_OBJECTS


class Answer(NamedTuple):
    names: Names
    arcs: dict
    claim: Claim


def add_files(words):
    """The words that name the files of an answer."""
    words.add_argument("arcs", metavar="ARCS", help="the arc file")
    words.add_argument("certificate", metavar="CERTIFICATE", help="what `auction solve` wrote for it")
    words.add_argument("--names", metavar="NAMES", help="the names file that `from_csv` wrote beside the arc file")
    words.add_argument("--objects", metavar="M", type=number_of_objects, help="how many objects there are, where no names file says; left out, as many as persons")


def number_of_objects(word):
    if not word.isdecimal() or not 1 <= int(word[:6]) <= MOST_OBJECTS:
        raise argparse.ArgumentTypeError(f"a number from 1 to {MOST_OBJECTS:,} is wanted, not {word!r}")
    return int(word)


def read_answer(words):
    """The answer that the words name. Without a names file, numbers are names."""
    text = read_bytes(words.arcs)
    names = read_names(words.names) if words.names else None
    if names and names.arcs.encode() != text:
        raise Fault(f"{words.names}: it has the names of another problem than {words.arcs}")
    objects = names.number_of_objects() if names else words.objects
    arcs = read_arcs(words.arcs, text, objects)
    claim = read_claim(words.certificate, read_bytes(words.certificate), arcs, objects or len(arcs), words.arcs)
    names = names or plain_names(len(arcs), objects or len(arcs))
    return Answer(names, arcs, claim_told(names, claim, arcs))
