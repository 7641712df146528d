"""How the letters of a text are written: as it is said, or as its bytes tell it. What isn't told for sure is noted."""
import codecs

from .faults import Fault, quoted

# So many bytes tell whether a text without a mark is UTF-16: then every other one of most is zero.
SAMPLE, LEAST_SHARE = 4_096, 0.3
# What spreadsheets on Windows write where they aren't asked for UTF-8.
WINDOWS = "cp1252"
WAY_OUT = "save the table as CSV in UTF-8, or say --encoding"


def decoded(file, content, encoding=None):
    """The text of a file's bytes, and notes on how its letters were taken."""
    if encoding is not None:
        return as_said(file, content, encoding), []
    if content.startswith((codecs.BOM_UTF16_LE, codecs.BOM_UTF16_BE)):
        return by(file, content, "utf-16", "UTF-16"), [f"{file}: it is UTF-16, and is read as that"]
    if (kind := utf16_of(content)) is not None:
        note = f"{file}: it looks like UTF-16 without a byte order mark, and is read as {kind}; --encoding says another one"
        return by(file, content, kind, "UTF-16"), [note]
    try:
        return content.decode("utf-8-sig"), []
    except UnicodeDecodeError as error:
        return as_windows(file, content, error)


def as_windows(file, content, error):
    """A text that is no UTF-8 is one of Windows, if no letter of it is one of UTF-8 and no byte is none of Windows."""
    line, byte = place_in_lines(content, error.start)
    fault = Fault(f"{file}, line {line}, byte {byte} of the line: no UTF-8; {WAY_OUT}")
    if b"\0" in content or not content.decode("utf-8-sig", "ignore").isascii():
        raise fault
    try:
        text = content.decode(WINDOWS)
    except UnicodeDecodeError:
        raise fault from None
    letter = quoted(content[error.start : error.start + 1].decode(WINDOWS))
    told = f"{file}: line {line} is no UTF-8, and the table is read as Windows-1252"
    return text, [f"{told}, where byte {byte} of the line is {letter}; --encoding says another one"]


def as_said(file, content, encoding):
    """The text by the encoding that was said."""
    try:
        return by(file, content, encoding, f"text in {encoding}")
    except LookupError:
        raise Fault(f"--encoding {encoding}: no encoding of texts is called so; say utf-8, utf-16, cp1252 or another one") from None


def by(file, content, encoding, called):
    try:
        return content.decode(encoding).removeprefix("\ufeff")
    except UnicodeError as error:
        start = getattr(error, "start", 0)
        line = content[:start].decode(encoding, "ignore").count("\n") + 1
        raise Fault(f"{file}, line {line}: byte {start + 1} of the file makes it no {called}; {WAY_OUT}") from None


def utf16_of(content):
    """Which UTF-16 a text without a mark is, by its zero bytes, or None."""
    sample = content[: min(SAMPLE, len(content) // 2 * 2)]
    first, second = (sample[begin::2].count(0) for begin in (0, 1))
    least = LEAST_SHARE * len(sample) / 2
    if len(content) % 2 or not sample or first and second:
        return None
    return "utf-16-be" if first > least else "utf-16-le" if second > least else None


def place_in_lines(content, start):
    """The line of a byte, and which one of the line it is, both from 1 on."""
    before = content[:start]
    return before.count(b"\n") + 1, start - (before.rfind(b"\n") + 1) + 1
