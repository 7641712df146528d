"""Arguments of a caller, looked at before anything is made of them: each fault is a ValueError that names the argument."""
import collections.abc
import operator

import numpy

from .nullable import of_nullable

# The limits of a problem: of its smaller side, of its larger one, and of its entries.
MOST_PERSONS, MOST_OBJECTS, MOST_ENTRIES = 4_194_304, 4_194_304, 268_435_456
MOST_BIDS = 2**64 - 1
MOST_INDEX = 2**32 - 2
INT64 = -(2**63), 2**63 - 1
# The highest price that a start may have, on the scale of whole costs times persons + 1.
HIGHEST_START = 2**60


def number(value, name, least, most):
    """A whole number from least to most as an int: whatever Python takes for an index, but no bool."""
    found = None if isinstance(value, (bool, numpy.bool_)) else attempt(operator.index, value)
    if found is None or not least <= found <= most:
        raise ValueError(f"{name} must be a whole number from {least} to {most}")
    return found


def is_whole(value):
    """Whether a value is a whole number of Python's or numpy's, and no bool."""
    return isinstance(value, (int, numpy.integer)) and not isinstance(value, (bool, numpy.timedelta64))


def truth(value, name):
    """True or False; 0 and 1 mean them."""
    if value is False or value is True:
        return value
    if isinstance(value, numpy.bool_):
        return bool(value)
    found = attempt(operator.index, value)
    if found not in (0, 1):
        raise ValueError(f"{name} must be True or False")
    return bool(found)


def sides_of(shape):
    """The numbers of rows and of columns that a shape gives."""
    is_list = isinstance(shape, (tuple, list)) or isinstance(shape, numpy.ndarray) and shape.ndim == 1
    if not is_list or len(shape) != 2:
        raise ValueError("shape must be two numbers, of rows and of columns")
    return tuple(number(side, "a side of the shape", 0, 2**32 - 1) for side in shape)


def array_of(value, name, most):
    """The value as an array of numpy's own class, with `most` along its first dimension at most; a longer one isn't read.

    A masked array is refused, since numpy would drop its mask, and what is masked would count.
    """
    if (attempt(len, value) or 0) > most:
        raise ValueError(f"{name} must number {most:,} at most")
    array = None if attempt(_holds_masked, value) else attempt(numpy.asanyarray, value)
    if array is None or isinstance(array, numpy.ma.MaskedArray):
        raise ValueError(f"{name} must be an array, or what numpy makes one of, with nothing masked: fill what is masked, or leave it out")
    return of_nullable(value, numpy.asarray(array))


def whole_numbers(value, name, least, most):
    """One list of whole numbers from least to most, within 64 bits, as an int64 array, which may be the caller's own. An empty list may be of any type."""
    array = array_of(value, name, MOST_ENTRIES)
    if array.shape == (0,):
        array = numpy.zeros(0, numpy.int64)
    if array.ndim != 1 or array.dtype.kind not in "iu":
        raise ValueError(f"{name} must be one list of whole numbers")
    if array.size and not least <= int(array.min()) <= int(array.max()) <= most:
        place = int(numpy.argmin(array) if array.min() < least else numpy.argmax(array))
        raise ValueError(f"{name} must not be below {least}, nor above {most}: number {place} is {array[place]}")
    return array.astype(numpy.int64, copy=False)


def attempt(call, value):
    """What a call makes of a value of the caller's, or None where it raises anything but want of memory."""
    try:
        return call(value)
    except MemoryError:
        raise
    except Exception:
        return None


def _holds_masked(value):
    """Whether a list has something masked in it, at any depth."""
    if not isinstance(value, collections.abc.Sequence) or isinstance(value, (str, bytes, bytearray, memoryview, range)):
        return False
    kinds = set(map(type, value))
    if any(issubclass(kind, numpy.ma.MaskedArray) for kind in kinds):
        return True
    return any(issubclass(kind, collections.abc.Sequence) for kind in kinds) and any(map(_holds_masked, value))
