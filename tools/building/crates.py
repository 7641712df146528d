"""What there is to build: the crates of crates.txt, what each stands on, and which are older than their sources."""
import pathlib

ROOT = pathlib.Path(__file__).resolve().parents[2]
PARTS = ("src", "specs", "proofs")
LEAST_LINES = 1


class Crate:
    """A crate of the repository: what it stands on, and how many lines are to be proved from it up."""

    def __init__(self, name, below, is_archive):
        self.name, self.below, self.is_archive = name, below, is_archive
        self.folder = ROOT / "crates" / name
        self.lines, self.way = LEAST_LINES, 0

    def is_program(self):
        return (self.folder / "src" / "main.rt").exists()

    def is_library(self):
        """Whether other crates can stand on it."""
        return not self.is_program() and not self.is_archive

    def sources(self):
        for part in PARTS:
            yield from (path for path in (self.folder / part).rglob("*") if path.is_file())

    def measure(self):
        for path in self.sources():
            with open(path, "rb") as file:
                self.lines += sum(1 for _ in file)

    def product(self):
        """What `rt` leaves where the crate is built."""
        if self.is_archive:
            return self.folder / "out" / f"lib{self.name}.a"
        return self.folder / "out" / (self.name if self.is_program() else "rlib/stamp")

    def is_current(self, crates):
        """Whether it was built after the last change of its sources and of crates.txt, and after the crates that it stands on."""
        if not self.product().exists():
            return False
        built = self.product().stat().st_mtime
        products = [crates[name].product() for name in self.below]
        origins = (ROOT / "crates.txt", *self.sources(), *(product for product in products if product.exists()))
        return all(path.stat().st_mtime <= built for path in origins)

    def freshen(self):
        """Gives the product today's date: where only the date of a source has changed, `rt` leaves it as it was."""
        if self.product().exists():
            self.product().touch()


def crates_of(text):
    """Each crate of crates.txt with those of the repository that it stands on."""
    parts = [line.split("#")[0].partition(":") for line in text.splitlines()]
    heads = {words[0]: (words[1:], after.split()) for before, colon, after in parts if colon and (words := before.split())}
    return {name: Crate(name, [it for it in after if it in heads], "staticlib" in words) for name, (words, after) in heads.items()}


def all_below(crate, crates):
    """All crates that one stands on, by name."""
    found, left = {}, list(crate.below)
    while left:
        name = left.pop()
        if name not in found:
            found[name] = crates[name]
            left += crates[name].below
    return found


def measure_ways(crates):
    """Tells each crate how many lines are to be proved from it up, along the longest chain."""
    for crate in crates.values():
        crate.measure()
    above = {name: [other for other in crates.values() if name in other.below] for name in crates}

    def way_of(crate):
        if not crate.way:
            crate.way = crate.lines + max((way_of(other) for other in above[crate.name]), default=0)
        return crate.way

    for crate in crates.values():
        way_of(crate)


def outdated(crates):
    """The crates that have to be built: their sources, or what they stand on, have changed since, or something below them is to be built."""
    left = {name for name, crate in crates.items() if not crate.is_current(crates)}
    while more := {name for name, crate in crates.items() if name not in left and left & set(crate.below)}:
        left |= more
    return left
