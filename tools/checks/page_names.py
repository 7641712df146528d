"""Names in back quotes that exist nowhere: each name of code that a page shows has to stand in the sources, the
tools or the toolchain. The file of a package has to be one of the version that VERSION says."""
import functools
import pathlib
import re
import shutil
import subprocess

ROOT = pathlib.Path(__file__).resolve().parents[2]
# What pages tell of as gone, or as another's: a diary of what changed and of what was tried.
PAST = ("CHANGELOG.md", "docs/notes/")
SUFFIXES = {".rt", ".antt", ".py", ".c", ".h", ".cpp", ".rs", ".toml", ".edit", ".in", ".cmake", ".map", ".txt", ".names", ".bash", ".zsh", ".fish", ".1"}
SKIPPED = {"out", "dist", ".git", "__pycache__"}
# A name of code: words joined by underscores or colons, or a word with a capital inside.
NAME = re.compile(r"(?<!\w)(?:[A-Za-z]\w*(?:::\w+)+|[a-z]\w*_\w+|[A-Z][a-z]\w*[A-Z]\w*)")
COMMENT = re.compile(r"(?://|--).*")
# The file of a package, which no source names, since it is made of VERSION.
PACKAGE = re.compile(r"[a-z][a-z0-9-]*[_-]([0-9.]+)[_-](?:amd64\.deb|linux-x86_64\.tar\.gz)")


def is_source(path):
    return path.suffix in SUFFIXES or not path.suffix


def files(folder):
    """The files below a folder that may define a name, but for what is built or kept."""
    for path in sorted(folder.iterdir()):
        if path.name in SKIPPED or path.is_symlink():
            continue
        if path.is_dir():
            yield from files(path)
        elif is_source(path):
            yield path


def text_of(path):
    try:
        return path.read_text(encoding="utf-8")
    except UnicodeDecodeError:
        return ""


@functools.cache
def sources():
    """The text of each source, without comments where it is Rattle's, so that a word of prose makes no name."""
    return [(path, COMMENT.sub("", text_of(path)) if path.suffix in (".rt", ".antt") else text_of(path)) for path in files(ROOT)]


@functools.cache
def words():
    """Every word of the sources, the names of files and folders among them."""
    found = set()
    for path, text in sources():
        found.update(re.findall(r"\w+", text))
        found.update(re.findall(r"\w+", str(path.relative_to(ROOT))))
    return found


@functools.cache
def kit_has(word):
    """Whether the toolchain's guides and libraries have a word; where there is no toolchain, all may be there."""
    command = shutil.which("rt")
    if not command:
        return True
    page = subprocess.run([command, "doc"], capture_output=True, text=True).stdout.strip()
    return subprocess.run(["grep", "-rqwF", "--include=*.rt", "--include=*.antt", "--include=*.md", word, pathlib.Path(page).parent]).returncode == 0


@functools.cache
def owners(first):
    """The sources in which something of this name is made or given methods, or a module of this name."""
    made = re.compile(rf"\b(?:enum|struct|trait|type|impl(?:<[^>]*>)?|for|mod)\s+{re.escape(first)}\b")
    return [text for path, text in sources() if path.suffix == ".rt" and (path.stem == first or first in path.parts or made.search(text))]


@functools.cache
def is_name(name):
    """Whether a name stands somewhere: with colons, in a source of what comes before them."""
    parts = [part for part in name.split("::") if part]
    if any(part not in words() and not kit_has(part) for part in parts):
        return False
    if len(parts) < 2 or not owners(parts[-2]):
        return True
    return any(re.search(rf"\b{re.escape(parts[-1])}\b", text) for text in owners(parts[-2]))


def names_in(line):
    for quoted in re.findall(r"`([^`]+)`", line):
        yield from NAME.findall(PACKAGE.sub("", quoted))


def faults_of_names(page, lines):
    """The names that a page shows and that exist nowhere. Lines are the numbered ones of its prose."""
    name_of_page, version = str(page.relative_to(ROOT)), (ROOT / "VERSION").read_text(encoding="ascii").strip()
    if name_of_page.startswith(PAST):
        return []
    shown = [(number, name) for number, line in lines if not line.startswith("    ") for name in names_in(line)]
    packages = [(number, found) for number, line in lines for found in PACKAGE.finditer(line)]
    faults = [f"{name_of_page}, line {number}: `{name}` exists nowhere" for number, name in shown if not is_name(name)]
    return faults + [f"{name_of_page}, line {number}: {found[0]} isn't of version {version}" for number, found in packages if found[1] != version]
