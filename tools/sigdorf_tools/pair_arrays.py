"""Pairs by the million by numpy: names and costs of thousands of rows are read by a few calls. What isn't plain isn't read here at all."""
from typing import NamedTuple

from .arrays import MOST_DIGITS, STEPS, ArrayArcs, Cells

# So many characters are looked at by one call: they stay in the processor's cache.
BATCH = 200_000
# The longest name in bytes that is read here, and how many bytes a word has.
LONGEST, WORD = 32, 8
# How many places a dictionary has, as a power of 2, and by what words are multiplied so that they are spread over them.
PLACES, SPREAD = 18, [0x9E3779B97F4A7C15, 0xC2B2AE3D27D4EB4F, 0x165667B19E3779F9, 0x27D4EB2F165667C5]
# So many names that a dictionary doesn't know are looked up one by one before the others are looked at again.
ONE_BY_ONE = 32
# How the first bytes of a word, or the last ones, are kept.
FIRST_BYTES = [(1 << 8 * count) - 1 for count in range(WORD + 1)]
LAST_BYTES = [((1 << 8 * count) - 1) << 8 * (WORD - count) for count in range(WORD + 1)]
ZEROS, ABOVE_NINE, HIGH_BITS = (int.from_bytes(bytes([byte]) * WORD, "little") for byte in (0x30, 0x76, 0x80))
# Above so many pairs of a person and an object, whether any is there or not, they are sorted to find one that is there twice.
MOST_CELLS = 100_000_000


class Dictionary:
    """The numbers of names, from 1 on as they come. A name is some words; each has a place by its words, and the few whose place is taken are looked up one by one."""

    def __init__(self, numpy, most):
        self.numpy, self.names, self.most, self.used = numpy, {}, most, 1
        self.at = numpy.zeros(1 << PLACES, numpy.int32)
        self.words = [numpy.zeros(most + 2, numpy.uint64) for _ in range(LONGEST // WORD)]

    def numbers(self, words, name_of):
        """The numbers of names by their words; name_of gives the bytes of one by its place. None where there are too many names."""
        numpy = self.numpy
        self.used = max(self.used, len(words))
        places = sum(word * numpy.uint64(factor) for word, factor in zip(words, SPREAD)) >> numpy.uint64(64 - PLACES)
        numbers = self.at[places]
        left = numpy.flatnonzero(self.differ(numbers, words))
        while len(left):
            now, left = left[:ONE_BY_ONE], left[ONE_BY_ONE:]
            for row in now.tolist():
                numbers[row] = self.number(name_of(row), [word[row] for word in words], places[row])
            if len(self.names) > self.most:
                return None
            numbers[left] = self.at[places[left]]
            left = left[self.differ(numbers[left], [word[left] for word in words])]
        return numbers

    def differ(self, numbers, words):
        """Which numbers aren't those of the names. What is left of longer names is zero."""
        found = self.words[0][numbers] != words[0]
        for kept, word in zip(self.words[1 : self.used], [*words[1:], *[0] * self.used]):
            found |= kept[numbers] != word
        return found

    def number(self, name, words, place):
        number = self.names.setdefault(name, len(self.names) + 1)
        if number == len(self.names) and number <= self.most:
            for kept, word in zip(self.words, words):
                kept[number] = word
            if not self.at[place]:
                self.at[place] = number
        return number


class Persons:
    """The numbers of the names of persons, which are looked up where another one follows."""

    def __init__(self, numpy, most):
        self.numpy, self.dictionary = numpy, Dictionary(numpy, most)

    def numbers(self, words, name_of):
        """The numbers of all rows, and where in these another person begins."""
        numpy = self.numpy
        differ = words[0][1:] != words[0][:-1]
        for word in words[1:]:
            differ |= word[1:] != word[:-1]
        begins = numpy.concatenate([[0], numpy.flatnonzero(differ) + 1])
        numbers = self.dictionary.numbers([word[begins] for word in words], lambda place: name_of(begins[place]))
        lengths = numpy.diff(numpy.append(begins, len(words[0])))
        return None if numbers is None else (numpy.repeat(numbers, lengths), begins)


class Objects:
    """The numbers of the names of objects. Where a person has the same ones as the one before, in the same order, they aren't looked up."""

    def __init__(self, numpy, most):
        self.numpy, self.dictionary = numpy, Dictionary(numpy, most)
        self.person, self.before, self.now, self.at = None, None, [], 0

    def numbers(self, words, name_of, persons, begins):
        """The numbers of all rows, where those of a person begin at these places."""
        found = []
        for begin, end in zip(begins.tolist(), [*begins[1:].tolist(), len(persons)]):
            if persons[begin] != self.person:
                self.person, self.before, self.now, self.at = persons[begin], self.joined(), [], 0
            part = [word[begin:end] for word in words]
            numbers = self.same(part, end - begin)
            if numbers is None:
                numbers = self.dictionary.numbers(part, lambda place, begin=begin: name_of(begin + place))
                if numbers is None:
                    return None
            self.now.append((numbers, part))
            self.at += end - begin
            found.append(numbers)
        return self.numpy.concatenate(found)

    def same(self, words, count):
        """The numbers that the person before has at the same places, if they are of the same names."""
        if not self.before or len(self.before[1]) != len(words):
            return None
        numbers, before = self.before
        part = slice(self.at, self.at + count)
        is_same = self.at + count <= len(numbers) and all(self.numpy.array_equal(kept[part], word) for kept, word in zip(before, words))
        return numbers[part] if is_same else None

    def joined(self):
        """All numbers and words of the person who was read last; none where the words of the longest name aren't as many in all parts."""
        if len({len(words) for _, words in self.now}) != 1:
            return None
        numbers, words = zip(*self.now)
        return self.numpy.concatenate(numbers), [self.numpy.concatenate(parts) for parts in zip(*words)]


class Columns(NamedTuple):
    """The names of persons and of objects, and for each row the numbers of both, and the cost."""

    persons: list
    objects: list
    person_numbers: object
    object_numbers: object
    costs: Cells


def columns_of(numpy, content, begin, separator, marks, most_persons, most_objects):
    """The columns of the rows that begin at a place of a content, in bytes, where the last one ends; and the mark that the costs have, or None. None at all where a row hasn't three cells, or one
    isn't plain."""
    names, parts, found = (Persons(numpy, most_persons), Objects(numpy, most_objects)), [], None
    padding = b"\0" * LONGEST
    while begin < len(content):
        end = content.find(b"\n", begin + BATCH) + 1 or len(content)
        part = columns_of_rows(numpy, padding[:WORD] + content[begin:end] + padding, ord(separator), [ord(mark) for mark in marks], names)
        if not part or found and part[-1] and part[-1] != found:
            return None
        *arrays, mark = part
        found, begin = found or mark, end
        parts.append(arrays)
    persons, objects, *costs = (numpy.concatenate(arrays) for arrays in zip(*parts))
    is_filled = numpy.ones((1, len(persons)), bool)
    persons_named, objects_named = ([name.decode() for name in known.dictionary.names] for known in names)
    return Columns(persons_named, objects_named, persons, objects, Cells(*(column[None] for column in costs), is_filled)), found and chr(found)


def columns_of_rows(numpy, text, separator, marks, names):
    """Numbers of persons and of objects, costs without marks, their decimals, whether they have a mark, and which one, of some rows between zero bytes."""
    characters = numpy.frombuffer(text, numpy.uint8)
    places = numpy.flatnonzero((characters == separator) | (characters == ord("\n")))
    if len(places) % 3 or not len(places):
        return None
    kinds, ends = characters[places].reshape(-1, 3), places.reshape(-1, 3)
    if (kinds[:, :2] != separator).any() or (kinds[:, 2] != ord("\n")).any():
        return None
    begins = numpy.empty_like(ends)
    begins[0, 0], begins[1:, 0], begins[:, 1:] = WORD, ends[:-1, 2] + 1, ends[:, :2] + 1
    numbers, more = [], ()
    for column, known in enumerate(names):
        first, last = numpy.ascontiguousarray(begins[:, column]), numpy.ascontiguousarray(ends[:, column])
        words = words_of(numpy, text, first, last - first)
        found = words and known.numbers(words, lambda row: text[first[row] : last[row]], *more)
        if found is None or not words:
            return None
        if column == 0:
            found, breaks = found
            more = found, breaks
        numbers.append(found)
    costs = costs_of(numpy, text, characters, places, begins[:, 2].copy(), ends[:, 2].copy(), marks)
    return costs and [*numbers, *costs]


def words_of(numpy, text, begins, lengths):
    """Names as words, with zeros behind their ends; None where one is empty or too long."""
    longest = int(lengths.max())
    if lengths.min() < 1 or longest > LONGEST:
        return None
    at, kept = words_at(numpy, text), numpy.array(FIRST_BYTES, numpy.uint64)
    return [at[begins + place] & kept[numpy.minimum(numpy.maximum(lengths - place, 0), WORD)] for place in range(0, longest, WORD)]


def words_at(numpy, text):
    """The word that begins at each byte."""
    return numpy.ndarray(len(text) - WORD + 1, "<u8", text, strides=(1,))


class Marked(NamedTuple):
    """Which mark costs have, or None; where each one has it, or ends; and how many digits stand behind it, in each or in all."""

    mark: int | None
    stops: object
    decimals: object


def costs_of(numpy, text, characters, places, begins, ends, marks):
    """Costs without marks, their decimals, whether they have a mark, and which one; None where one is no plain number, or there are two marks."""
    even = costs_with(numpy, text, characters, begins, ends, evenly_marked(text, characters, begins, ends, marks))
    return even or costs_with(numpy, text, characters, begins, ends, marked(numpy, characters, places, ends, marks))


def evenly_marked(text, characters, begins, ends, marks):
    """The marks, if all costs have as many decimals as the first one. That there is none elsewhere is seen when they are read."""
    first = text[begins[0] : ends[0]]
    for mark in marks:
        place = first.find(mark)
        if place >= 0:
            stops = ends - (len(first) - place)
            return Marked(mark, stops, len(first) - place - 1) if (characters[stops] == mark).all() else None
    return Marked(None, ends, 0)


def marked(numpy, characters, places, ends, marks):
    """The marks wherever they are; None where two of them are in a cost, or both kinds in some."""
    all_marks = Marked(None, ends, numpy.zeros(len(ends), numpy.int8))
    for mark in marks:
        found = numpy.flatnonzero(characters == mark)
        cells = numpy.searchsorted(places, found)
        found, rows = found[cells % 3 == 2], cells[cells % 3 == 2] // 3
        if not len(found):
            continue
        if all_marks.mark or (rows[1:] == rows[:-1]).any() or (ends[rows] - found).max() > MOST_DIGITS:
            return None
        all_marks = Marked(mark, ends.copy(), all_marks.decimals)
        all_marks.stops[rows], all_marks.decimals[rows] = found, ends[rows] - found - 1
    return all_marks


def costs_with(numpy, text, characters, begins, ends, found):
    """The costs, if they have these marks."""
    if not found:
        return None
    mark, stops, decimals = found
    is_negative = characters[begins] == ord("-")
    whole = stops - begins - is_negative
    if (whole + decimals).max() > MOST_DIGITS or whole.min() < 0 or (whole + decimals).min() < 1:
        return None
    numbers = digits_before(numpy, text, stops, whole)
    if mark and numbers is not None:
        fractions = digits_before(numpy, text, ends, decimals)
        numbers = None if fractions is None else numbers * 10 ** (decimals if isinstance(decimals, int) else decimals.astype(numpy.int64)) + fractions
    if numbers is None:
        return None
    numbers = numbers.astype(numpy.int32)
    if is_negative.any():
        numbers = numpy.where(is_negative, -numbers, numbers)
    return numbers, numpy.broadcast_to(numpy.int8(decimals), len(ends)) if isinstance(decimals, int) else decimals, stops < ends, mark


def digits_before(numpy, text, ends, digits):
    """The numbers of so many digits, in each or in all, that end before these places; None where one has another character."""
    kept = numpy.array(LAST_BYTES, numpy.uint64)[digits]
    words = words_at(numpy, text)[ends - WORD] & kept
    words ^= kept & numpy.uint64(ZEROS)
    if ((words | (words + numpy.uint64(ABOVE_NINE))) & numpy.uint64(HIGH_BITS)).any():
        return None
    for factor, bits, mask in STEPS:
        words *= numpy.uint64(factor)
        words >>= numpy.uint64(bits)
        words &= numpy.uint64(mask)
    return words.astype(numpy.int64)


def arcs_by_persons(numpy, columns, units):
    """The arcs of each person; None where a pair is there twice."""
    persons, objects = columns.person_numbers, columns.object_numbers
    if has_doubles(numpy, persons, objects, len(columns.persons) + 1, len(columns.objects) + 1):
        return None
    if (persons[1:] < persons[:-1]).any():
        order = numpy.argsort(persons.astype(numpy.int16), kind="stable")
        objects, units = objects[order], units[order]
    ends = numpy.cumsum(numpy.bincount(persons, minlength=len(columns.persons) + 1)[1:])[:-1]
    return list(map(ArrayArcs, numpy.split(objects, ends), numpy.split(units, ends)))


def has_doubles(numpy, persons, objects, rows, columns):
    if rows * columns > MOST_CELLS:
        pairs = numpy.sort(persons.astype(numpy.int64) * columns + objects)
        return (pairs[1:] == pairs[:-1]).any()
    seen = numpy.zeros(rows * columns, bool)
    seen[persons.astype(numpy.int64) * columns + objects] = True
    return numpy.count_nonzero(seen) < len(persons)
