"""The commands that a page shows, in the words of whoever has a package."""
import re

PROMPT, INDENT = "    $ ", "    "
# How a command of the repository is called once it is installed.
NAMES = [
    (r"(?<![\w/])\./auction\b", "auction"),
    (r"(?<![\w/])\./plan\b", "auction-plan"),
    (r"(?<![\w/])tools/check_certificate\.py", "auction-check-certificate"),
    (r"(?<![\w/])tools/(from|to)_csv\b", r"auction-\1-csv"),
    (r"(?<![\w/])tools/(picture|margins)\b", r"auction-\1"),
]

# How long a plan took, at the end of its line.
TOOK = re.compile(r"(?<=, )[0-9]+\.[0-9] s$")


def installed(command):
    for pattern, name in NAMES:
        command = re.sub(pattern, name, command)
    return command


def told(line):
    """A sentence of a tool begins with the name that it was called by."""
    return "auction-" + line if line.startswith("plan: ") else line


def compared(lines):
    """Lines of output without how long something took."""
    return [TOOK.sub("0.1 s", line) for line in lines]


def commands_of(text):
    """Each command of a page with the lines that have to come out."""
    found = None
    for line in [*text.splitlines(), ""]:
        if line.startswith(PROMPT):
            if found:
                yield found
            found = installed(line.removeprefix(PROMPT)), []
        elif found and line.startswith(INDENT):
            found[1].append(told(line.removeprefix(INDENT)))
        elif found:
            yield found
            found = None
