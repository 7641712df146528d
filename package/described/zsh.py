"""Completion of a tool for zsh, with a few words on each option."""

TEXT = """\
#compdef {command}
# Completion of {command} for zsh, which package/describe has made of the options that the tool knows.
_arguments \\
{parts}
"""


def place_of(command):
    return f"share/zsh/site-functions/_{command}"


def text_of(tool):
    parts = [part_of(option) for option in tool.options()] + [part_of_file(file) for file in tool.files]
    return TEXT.format(command=tool.command, parts=" \\\n".join(f"    {part}" for part in parts))


def quoted(text):
    return "'" + text.replace("'", "'\\''") + "'"


def escaped(text, letters):
    for letter in "\\" + letters:
        text = text.replace(letter, "\\" + letter)
    return text


def value_of(option):
    """The part of a value: what it is, and what is offered for it."""
    if option.value is None and option.names:
        return ""
    offered = f"({' '.join(option.choices)})" if option.choices else "_files" if option.takes_file() else ""
    return f":{escaped(option.value, ':')}:{offered}"


def part_of(option):
    """An option with those that it can't stand beside; one that may stand more than once has a star."""
    front = f"({' '.join(option.excludes)})" if option.excludes else "*"
    rest = f"[{escaped(option.in_short(), '[]')}]{value_of(option)}"
    if len(option.names) == 1:
        return quoted(f"{front}{option.names[0]}{rest}")
    return f"{quoted(front)}{{{','.join(option.names)}}}{quoted(rest)}"


def part_of_file(file):
    return quoted(f"{':' if file.is_left_out else ''}{value_of(file)}")
