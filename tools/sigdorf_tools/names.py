"""Names files: what a plan needs to be told in the words of its table."""
import json
from typing import NamedTuple

from .amounts import MOST_DECIMALS, amount_of
from .clocks import MARK
from .faults import Fault, read_bytes

FORMAT = "sigdorf names 2"


class Names(NamedTuple):
    """The fields of a names file, in its order; docs/FORMATS.md says what each one means."""

    table: str
    titles: list
    separator: str
    mark: str
    decimals: int
    maximise: bool
    persons: list
    objects: list
    dummy_objects: int
    arcs: str

    def amount(self, cost):
        """A cost of the solver as an amount of the table, in the table's sign."""
        return amount_of(-cost if self.maximise else cost, self.decimals, self.mark)

    def for_programs(self):
        """The names such that amounts are numbers for programs, or times as they are."""
        return self if self.mark == MARK else self._replace(mark=".")

    def person(self, number):
        """The name of a person."""
        return self.persons[number - 1]

    def object(self, number):
        """The name of an object, or None of a dummy."""
        return self.objects[number - 1] if number <= len(self.objects) else None

    def text(self):
        """The names file."""
        return json.dumps({"format": FORMAT, **self._asdict()}, ensure_ascii=False, indent=1) + "\n"

    def told(self):
        """How many there are of all, in words."""
        dummies = f" with {self.dummy_objects} dumm{'y' if self.dummy_objects == 1 else 'ies'}" if self.dummy_objects else ""
        arcs = self.arcs.count("\n") - 1
        return f"{counted(len(self.persons), 'person')}, {counted(self.number_of_objects(), 'object')}{dummies}, {counted(arcs, 'arc')}"

    def number_of_objects(self):
        """How many objects the problem has, dummies among them."""
        return len(self.objects) + self.dummy_objects

    def words_for_objects(self):
        """What tells `auction` how many objects there are, where they are more than the persons."""
        return [f"--objects={len(self.objects)}"] if len(self.objects) > len(self.persons) else []


def counted(number, word):
    """A number of things."""
    return f"{number} {word}{'s' * (number != 1)}"


def plain_names(persons, objects):
    """Names for a problem that has none: its numbers."""
    numbers = [str(number) for number in range(1, objects + 1)]
    return Names("the problem", ["person", "object", "cost"], ",", ".", 0, False, numbers[:persons], numbers, 0, "")


def read_names(file):
    """The names of a file, each field of the type and in the range that it has to have."""
    try:
        fields = json.loads(read_bytes(file).decode("utf-8"))
    except (ValueError, RecursionError):
        raise Fault(f"{file}: no names file, as from_csv writes it, since it is no JSON in UTF-8") from None
    if not isinstance(fields, dict) or fields.get("format") != FORMAT:
        raise Fault(f"{file}: no names file, as from_csv writes it, since it lacks `\"format\": \"{FORMAT}\"`")
    for field, kind in Names.__annotations__.items():
        if type(fields.get(field)) is not kind:
            raise Fault(f"{file}: its field `{field}` is missing or of another type than {kind.__name__}")
    names = Names(*(fields[field] for field in Names._fields))
    look_at_names(file, names)
    return names


def look_at_names(file, names):
    """Fields that fit one another."""
    texts = [*names.titles, *names.persons, *names.objects]
    sound = {
        "titles": len(names.titles) == 3,
        "persons": bool(names.persons) and all(isinstance(text, str) for text in texts),
        "separator": names.separator in (",", ";", "\t"),
        "mark": names.mark in (".", ",", MARK),
        "decimals": 0 <= names.decimals <= MOST_DECIMALS if names.mark != MARK else 1 <= names.decimals <= 2,
        "dummy_objects": names.dummy_objects == max(len(names.persons) - len(names.objects), 0),
        "arcs": names.arcs.split(maxsplit=1)[:1] == [str(len(names.persons))],
    }
    for field, holds in sound.items():
        if not holds:
            raise Fault(f"{file}: its field `{field}` is none that from_csv writes")
