"""What to do about a name that isn't in the table."""
import difflib

from .faults import quoted


def unknown(word, name, names):
    """The end of a sentence on a name that isn't there."""
    near = difflib.get_close_matches(name, names, 1)
    return f"the table has no {word} {quoted(name)}{f'; is {quoted(near[0])} meant?' if near else '; write it as it is there'}"
