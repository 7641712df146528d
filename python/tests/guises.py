"""Random problems, and their lists in other guises: some say the same to numpy, others are at fault."""
import array
import collections
import decimal
import fractions

import numpy

INTEGERS = ("i1", "u1", "i2", "u2", "i4", "u4", "i8", "u8")
FLOATS = ("f2", "f4", "f8", "g")
EDGES = (-1, 2**15, 2**31 - 1, 2**31, 2**32 - 2, 2**32 - 1, 2**32, 2**53 + 1, 2**63 - 1, 2**63, 2**64, -(2**63), -(2**64), 10**9, 10**9 + 1, -(10**9) - 1)
ODD_NUMBERS = (None, True, False, numpy.True_, 0, 1, -1, 7, 0.0, 1.0, 1.5, float("nan"), float("inf"), "1", b"1", 2**63, 2**64, 10**5000, decimal.Decimal(1), decimal.Decimal("sNaN"),
               decimal.Decimal("1e999999"), fractions.Fraction(1, 2), numpy.int8(1), numpy.uint64(2**63), numpy.float32(1), numpy.timedelta64(1), numpy.ma.masked, (1,), [1], numpy.array(1), numpy.array([1]))


class Broken:
    """What raises something of its own wherever it is looked at."""

    def __len__(self):
        raise KeyError("length")

    def __array__(self, *_, **__):
        raise OSError("array")

    def __index__(self):
        raise AttributeError("index")

    def __getattr__(self, name):
        raise ZeroDivisionError(name)


def same(random, numbers, kinds):
    """The numbers as a list, or an array of any of these types that holds them, in any order of bytes, stride and owner."""
    if random.random() < 0.2:
        return random.choice([list, tuple, collections.deque])(numbers)
    fitting = [kind for kind in kinds if holds(kind, numbers)]
    given = numpy.array(numbers, random.choice(fitting) if fitting else None)
    return other_layout(random, given.astype(given.dtype.newbyteorder(">")) if random.random() < 0.3 else given)


def holds(kind, numbers):
    with numpy.errstate(all="ignore"):
        try:
            return numpy.array(numbers, kind).tolist() == list(numbers)
        except (OverflowError, ValueError, DeprecationWarning):
            return False


def other_layout(random, given):
    """The array with other strides, from the other end, or not to be written."""
    layout = random.randrange(5)
    if layout == 1:
        return numpy.repeat(given, 3, axis=0)[::3]
    if layout == 2:
        return given[::-1].copy()[::-1]
    if layout == 3:
        given.setflags(write=False)
    return numpy.asfortranarray(given) if layout == 4 else given


def odd(random, numbers):
    """Something else in place of a list: of another type, shape, length or range, or nothing that numpy can read."""
    numbers = numpy.array(numbers).tolist()
    makers = [
        lambda: with_edge(random, numbers), lambda: numpy.array(numbers, random.choice(FLOATS)), lambda: numpy.array(numbers, bool), lambda: numpy.array(numbers, complex),
        lambda: numpy.array(numbers, object), lambda: [str(number) for number in numbers], lambda: numpy.zeros(len(numbers), random.choice(["M8[s]", "m8[s]", "V4", "S3", "U2"])),
        lambda: numpy.zeros(len(numbers), [("a", "i4"), ("b", "f8")]), lambda: numpy.array(numbers[0] if numbers else 0), lambda: numpy.zeros((len(numbers), random.randrange(3)), int),
        lambda: numpy.zeros((1, len(numbers)), int), lambda: numpy.matrix([numbers]), lambda: numpy.ma.masked_array(numbers, [random.random() < 0.5 for _ in numbers]),
        lambda: numbers + [numpy.ma.masked], lambda: numbers[:-1], lambda: numbers + numbers, lambda: [], lambda: (number for number in numbers), lambda: set(numbers), lambda: dict.fromkeys(numbers),
        lambda: None, lambda: 3, lambda: "12", lambda: b"12", lambda: range(len(numbers)), lambda: range(10**12), lambda: numpy.broadcast_to(numpy.int32(1), (10**12,)),
        lambda: numpy.broadcast_to(numpy.float64(1), (len(numbers), 10**10)), lambda: [decimal.Decimal(number) for number in numbers], lambda: [fractions.Fraction(1, 3)] * len(numbers),
        lambda: [numbers], lambda: [[number] for number in numbers], lambda: [numbers, numbers + [1]], lambda: Broken(), lambda: [Broken()] * len(numbers), lambda: in_itself(numbers),
        lambda: array.array("d", map(float, numbers)), lambda: memoryview(bytes(len(numbers))), lambda: [None] * len(numbers), lambda: [float(random.choice(["nan", "inf", "-inf", "1e308", "0.3"]))] * len(numbers),
        lambda: numpy.frombuffer(random.randbytes(8 * len(numbers)), random.choice(["f8", "i8", "u8", "f4", "f2", "?"])), lambda: random.choice(ODD_NUMBERS),
    ]
    with numpy.errstate(all="ignore"):
        return random.choice(makers)()


def with_edge(random, numbers):
    numbers = list(numbers) or [0]
    numbers[random.randrange(len(numbers))] = random.choice(EDGES)
    return numbers


def in_itself(numbers):
    numbers.append(numbers)
    return numbers


def odd_shape(random, shape):
    shapes = [None, 5, "22", {2, 3}, {2: 3}, shape[:1], (*shape, 1), (2.0, 2), (True, 2), (-1, 2), (2**32 - 1, 2**32 - 1), (0, 2**32 - 1), (2**64, 2), (4_194_305, 4_194_305), (2, 4_194_305), numpy.array(shape),
              numpy.array([shape, shape]), numpy.array(3), shape[::-1], (shape[0] - 1, shape[1]), (shape[0], shape[1] - 1), (0, shape[1]), (shape[0], 0), Broken(), (Broken(), 1), (numpy.ma.masked, 2),
              numpy.ma.masked_array(shape, [1, 0]), list(shape), (*map(numpy.uint16, shape),), (random.choice(ODD_NUMBERS), random.choice(ODD_NUMBERS))]
    return random.choice(shapes)
