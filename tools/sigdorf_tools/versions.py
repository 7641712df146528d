"""What each tool says of itself: its version, and its help in the words of whoever calls it."""
import pathlib
import re

# The root of a clone, or the folder that `install` puts the tools into. Both have the file VERSION.
HOME = pathlib.Path(__file__).resolve().parents[2]
# How what a help text names is called where it is installed.
INSTALLED = [
    (r"(?<![\w/.])\./auction\b", "auction"),
    (r"(?<![\w/.])\./plan\b", "auction-plan"),
    (r"(?<![\w/.-])(?:tools/)?(from|to)_csv\b", r"auction-\1-csv"),
    (r"(?<![\w/.-])tools/(picture|margins)\b", r"auction-\1"),
]


def tell_of_itself(parser):
    """Adds --version to a parser that has all other options, and names commands in its help as its caller does."""
    told = f"%(prog)s {version()} (Sigdorf)"
    parser.add_argument("--version", action="version", version=told, help="show the version and exit")
    if parser.prog.startswith("auction-"):
        parser.description = in_installed_words(parser.description)
        for option in parser._actions:
            option.help = in_installed_words(option.help)


def version():
    try:
        return (HOME / "VERSION").read_text(encoding="ascii").strip()
    except OSError:
        return "of unknown version"


def in_installed_words(text):
    for pattern, name in INSTALLED:
        text = re.sub(pattern, name, text or "")
    return text
