"""Times as costs: hours and minutes, or with seconds too. They are counted in their smallest part and told as they
came, so that it needn't be known whether `1:30` is hours and minutes or minutes and seconds."""
import re

MARK = ":"
# A time, and its shape, which has a 0 for each digit.
CLOCK = re.compile(r"([+\-\u2212]?)([0-9]+)((?::[0-5][0-9]){1,2})")
CLOCK_SHAPE = re.compile(r"[+\-\u2212]?0+(?::00){1,2}")
DURATION = re.compile(r"(-?)P(?:([0-9]+)D)?T?(?:([0-9]+)H)?(?:([0-9]+)M)?(?:([0-9]+)(?:[.,]([0-9]+))?S)?")


class Clock(str):
    """The text of a time of a workbook, in hours, minutes and seconds."""


def units_of_clock(text):
    """How many smallest parts a time has, and how many of its parts are of 60; None where it is no time."""
    found = CLOCK.fullmatch(text)
    if not found:
        return None
    units = int(found[2])
    parts = found[3].split(MARK)[1:]
    for part in parts:
        units = 60 * units + int(part)
    return (units if found[1] in ("", "+") else -units), len(parts)


def clock_of(units, parts):
    """The text of so many smallest parts."""
    told, left = [], abs(units)
    for _ in range(parts):
        left, part = divmod(left, 60)
        told.append(f"{MARK}{part:02}")
    return f"{'-' if units < 0 else ''}{left}{''.join(reversed(told))}"


def clock_of_seconds(seconds):
    """The time of so many seconds of a workbook. What spreadsheets count in parts of a day is rounded to seconds, where
    it is one but for its binary digits."""
    whole = round(seconds)
    if abs(seconds - whole) > 0.01:
        return f"{clock_of(int(seconds // 1), 2)}.{round(seconds % 1 * 1000):03}"
    return Clock(clock_of(whole, 2))


def clock_of_duration(text):
    """The time of a duration as .ods has it, such as PT01H30M00S; another text as it is."""
    found = DURATION.fullmatch(text)
    if not found:
        return text
    days, hours, minutes, seconds = (int(found[place] or 0) for place in (2, 3, 4, 5))
    total = ((days * 24 + hours) * 60 + minutes) * 60 + seconds + float(f"0.{found[6] or 0}")
    return clock_of_seconds(-total if found[1] else total)


def without_seconds(rows):
    """The rows of a sheet; where none of its times has seconds, they are told in hours and minutes."""
    clocks = [cell for cells in rows.values() for cell in cells if isinstance(cell, Clock)]
    if not clocks or any(not clock.endswith(":00") for clock in clocks):
        return rows
    return {number: [cell[:-3] if isinstance(cell, Clock) else cell for cell in cells] for number, cells in rows.items()}
