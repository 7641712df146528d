"""Numbers of pandas' nullable types, which numpy has as objects; pandas itself isn't wanted."""
import numpy

from .costs import look_at_rounding
from .faults import Mistyped

NUMBERS, BOOLEAN = set("iuf"), "b"


def of_nullable(given, values):
    """The values of a frame or a column; where its types are nullable, as numbers, with NaN for what is missing."""
    if values.dtype != object or not hasattr(given, "isna"):
        return values
    types = getattr(given, "dtypes", None)
    kinds = {getattr(kind, "kind", None) for kind in (types if hasattr(types, "to_numpy") else [types])}
    if BOOLEAN in kinds and kinds <= NUMBERS | {BOOLEAN}:
        raise Mistyped("booleans with missing ones are no numbers: astype('Int64') makes 0 and 1 of them")
    if not kinds <= NUMBERS:
        return values
    listed = numpy.where(numpy.asarray(given.isna()), numpy.nan, values).tolist()
    numbers = numpy.array(listed, float if not values.size else None).reshape(values.shape)
    # Whole numbers beside others that aren't, or beside missing ones, are floats now.
    look_at_rounding(listed, numbers)
    return numbers
