"""How much there is to read: words, long sentences, long lines and house words of all pages but the diary, held against
page_counts.txt, whose figures only fall."""
import pathlib
import re

FILE = pathlib.Path(__file__).resolve().parent / "page_counts.txt"
MOST_WORDS_OF_SENTENCE, MOST_CHARACTERS = 30, 120
# Words of our own, for which the field has others: Gauss-Seidel or direct, the best arc, is, says or reports, sees.
HOUSE_WORDS = re.compile(r"\b(?:in one hand|worth (?:the )?least|stands?|tells?|told|knows?)\b", re.IGNORECASE)
# The page that explains such words.
GLOSSARY = "docs/GLOSSARY.md"
# What ends a sentence where no full stop does: a blank line, an item, a heading, or a cell of a table.
PARTS = re.compile(r"\n\s*\n|\n(?=\s*(?:[-|#]|\d+\.) ?)|(?<=\n)#.*\n|\s\|\s|^\||\|$", re.MULTILINE)


def prose_of(lines):
    """The text of numbered lines without code by indentation, links' targets and names in back quotes."""
    text = "\n".join(line for _, line in lines if not line.startswith("    "))
    return re.sub(r"`[^`\n]*`", "`", re.sub(r"\]\([^)\s]*\)", "]", text))


def sentences_of(prose):
    return [sentence for part in PARTS.split(prose) for sentence in re.split(r"(?<=[.!?])\s+", part or "")]


def counts_of(page, lines):
    """The figures of one page. Lines are the numbered ones of its prose; a row of a table is one."""
    prose = prose_of(lines)
    return {
        "words": len(page.read_text(encoding="utf-8").split()),
        "long_sentences": sum(len(sentence.split()) > MOST_WORDS_OF_SENTENCE for sentence in sentences_of(prose)),
        "long_lines": sum(len(line) > MOST_CHARACTERS for _, line in lines if not line.startswith("    ")),
        "house_words": 0 if str(page).endswith(GLOSSARY) else len(HOUSE_WORDS.findall(" ".join(prose.split()))),
    }


def sums(counts):
    """The figures of all pages, of those of each."""
    names = ("words", "long_sentences", "long_lines", "house_words")
    return {name: sum(of_page[name] for of_page in counts) for name in names}


def reached():
    lines = FILE.read_text(encoding="ascii").splitlines()
    return {line.split()[0]: int(line.split()[1]) for line in lines if line and not line.startswith("#")}


def faults_of_counts(found):
    above = [(name, most) for name, most in reached().items() if found[name] > most]
    return [f"tools/checks/{FILE.name}: {name} are {found[name]}, and may be {most}" for name, most in above]


def lower(found):
    """Writes the figures that have fallen, and raises none."""
    head = "".join(line for line in FILE.read_text(encoding="ascii").splitlines(True) if line.startswith("#"))
    rows = "".join(f"{name} {min(most, found[name])}\n" for name, most in reached().items())
    FILE.write_text(head + rows, encoding="ascii")
