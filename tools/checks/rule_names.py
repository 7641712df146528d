"""The rules of rules.toml, and where each name of theirs stands: a file and a line, or what is wrong with the name."""
import functools
import pathlib
import re
import tomllib

ROOT = pathlib.Path(__file__).resolve().parents[2]
DOCS = ROOT / "docs"
CRATES = ROOT / "crates"
DATA = DOCS / "rules.toml"
COLUMNS = ("definition", "clause", "code", "test", "edit")
# Files of cases that a rule may name as a whole, and why.
WHOLE_FILES = {
    "cases/help": "each of its cases is one way to ask for a page",
    "cases/messages/forms": "each of its cases is a form that is told, or a token that looks like one",
}
# Where tests in C and Python are, and how a function begins there.
FOLDERS = ("c/tests/", "package/tests/", "python/tests/", "tools/tests/")
FUNCTIONS = {".c": r"^\w[^;\n]*\b{}\([^;\n]*\{{$", ".py": r"^ *def {}\("}


class Missing(Exception):
    """A name of a rule that stands nowhere, told in words."""


def read_rules():
    return tomllib.loads(DATA.read_text(encoding="utf-8"))["rule"]


@functools.cache
def text_of(path):
    return path.read_text(encoding="utf-8")


def line_at(text, offset):
    return text.count("\n", 0, offset) + 1


def found_in(path, pattern):
    """The place of a pattern's first match in a file, or None."""
    found = re.search(pattern, text_of(path), re.M) if path.is_file() else None
    return (path, line_at(text_of(path), found.start())) if found else None


def definition_at(crate, name):
    file, _, word = name.partition(".")
    return found_in(CRATES / crate / "specs" / f"{file}.antt", rf"(?<![\w-]){re.escape(word)}(?![\w-])")


def contracts_of(crate, function):
    """Each function of this name that others may call: its file, and where its contract begins and ends there."""
    for path in sorted((CRATES / crate / "src").rglob("*.rt")):
        text = text_of(path)
        for found in re.finditer(rf"^( *)pub(?:\(crate\))? fn {re.escape(function)}\b", text, re.M):
            end = text.find(f"\n{found[1]}{{", found.end())
            yield path, found.end(), end if end >= 0 else len(text)


def clause_at(crate, name):
    function, _, clause = name.partition(".")
    wanted = f"ensures {clause} {{" if clause else "ensures {"
    for path, begin, end in contracts_of(crate, function):
        offset = text_of(path).find(wanted, begin, end)
        if offset >= 0:
            return path, line_at(text_of(path), offset)
    return None


def code_at(crate, name):
    path = CRATES / crate / "src" / f"{name}.rt"
    return (path, 1) if path.is_file() else None


def edit_at(crate, name):
    path = CRATES / crate / "must-fail" / f"{name}.edit"
    return (path, 1) if path.is_file() else None


@functools.cache
def cases_of(path):
    return tomllib.loads(text_of(path)).keys() - {"defaults"}


def case_at(file, name):
    path = ROOT / f"{file}.toml"
    if not path.is_file():
        raise Missing(f"there is no file {file}.toml")
    if not name and file in WHOLE_FILES:
        return path, 1
    if not name:
        raise Missing(f"the file has {len(cases_of(path))} cases; name one of them")
    if name not in cases_of(path):
        raise Missing(f"{file}.toml has no case {name}")
    return found_in(path, rf'^\["?{re.escape(name)}"?[\].]') or (path, 1)


def function_at(file, name):
    """The place of a test in C or Python."""
    path = ROOT / file
    if not path.is_file() or path.suffix not in FUNCTIONS:
        raise Missing(f"there is no file of tests {file}")
    if not name:
        raise Missing("it names no function; write FILE FUNCTION")
    place = found_in(path, FUNCTIONS[path.suffix].format(re.escape(name)))
    if not place:
        raise Missing(f"{file} has no function {name}")
    return place


def test_at(place, name):
    """The place of a case, of a function in C or Python, or of a function of a crate."""
    if place.startswith("cases/"):
        return case_at(place, name)
    if place.startswith(FOLDERS):
        return function_at(place, name)
    module, _, function = name.rpartition("::")
    path = CRATES / place / "src" / f"{module}.rt"
    if not module or not function:
        raise Missing("it names no function; write CRATE FILE::FUNCTION")
    if not path.is_file():
        raise Missing(f"there is no file {path.relative_to(ROOT)}")
    found = re.search(rf"^#\[test\]\nfn {re.escape(function)}\(", text_of(path), re.M)
    if not found:
        raise Missing(f"{path.relative_to(ROOT)} has no function {function} with #[test]")
    return path, line_at(text_of(path), found.start()) + 1


FINDERS = {"definition": definition_at, "clause": clause_at, "code": code_at, "test": test_at, "edit": edit_at}


def place_of(column, entry):
    """The file and the line of a name, or Missing."""
    owner, _, name = entry.partition(" ")
    place = FINDERS[column](owner, name) if name or column == "test" else None
    if not place:
        raise Missing(f"there is no {column} {entry}")
    return place
