"""How wide texts are in pictures, whichever font they are drawn in: the usual letters by a table, others measured by Pillow where it is installed, and else told generously.

The table was measured by fontTools: the greater width of a letter in DejaVu Sans and in Liberation Sans, which is as wide as Arial and Helvetica. `tools/tests/test_widths.py` measures it again.
It is the same everywhere, so that a picture of usual names is the same on all machines.
"""
import functools
import unicodedata

# The most that letters are wide, in parts of their size, upright and bold. Letters with marks are as wide as those without.
TABLE = [
    # A horn at a letter.
    (0.15, 0.16, "\u031b"),
    (0.30, 0.38, "Iij\u0131\u0142\u0406\u0456\u0458"),
    (0.35, 0.41, " ,.:;\\/|\u00a6\u00b7\u2018\u2019\u201a"),
    (0.40, 0.56, "\u0140"),
    (0.40, 0.48, "()-[]flt\u0167\u017f\u2010\u2011\u2039\u203a"),
    (0.45, 0.57, "!r\u00a1\u00b2\u00b3\u00b9\u03b9\u0399'"),
    (0.55, 0.66, '"*Jcsz`\u00aa\u00b0\u00ba\u00a8\u00b4\u00b8\u03b5\u03b6\u0408\u0433\u0437\u0441\u044d\u0454\u0455\u0491\u201c\u201d\u201e'),
    (0.60, 0.72, "?L\u0141_kvxy\u00a7\u00af\u0133\u0138\u03b3\u013f\u0393\u03ba\u03bb\u03bd\u03be\u03c2\u03c5\u03c7\u0432\u0442\u0443\u0445\u0447\u044c\u2013\u2020\u2021\u2022"),
    (0.66, 0.78, "$0123456789FTabdeghnopqu{}\u00a2\u00a3\u00a4\u00a5\u00ab\u00b5\u00b6\u00bb\u00bf\u00df\u00f0\u00f8\u00fe\u0111\u014b\u0166\u039e\u03a3\u03a4\u03b2\u03b4\u03b7\u03b8\u03bc\u03bf\u03c1\u03c3\u03c4\u0413\u0417\u0422\u0423"),
    (0.66, 0.78, "\u0430\u0431\u0435\u0438\u043a\u043b\u043e\u0440\u044f\u0452\u0490\u20ac\u20b9\u20bd"),
    (0.71, 0.82, "ABEKPSVXYZ\u00de\u0127\u0391\u0392\u0394\u0396\u039a\u039b\u03a1\u03a7\u03b1\u03c0\u03c6\u0405\u0410\u0411\u0412\u0415\u0420\u0425\u0427\u042c\u0434\u043d\u043f\u0446\u045b\u045f"),
    (0.75, 0.84, "CNRU\u0132\u014a\u03c8\u0404\u0418\u041a\u0421\u042d\u042f\u044a"),
    (0.81, 0.93, "&DGHOQ\u00d0\u00d8\u0110\u0395\u0398\u03a0\u03a6\u040f\u0414\u041b\u041d\u041e\u041f\u0426\u043c\u044b"),
    (0.86, 0.99, "#+<=>^w~\u00ac\u00b1\u00d7\u00f7\u0149\u039f\u03a5\u03a8\u03a9\u03c9\u042a\u044e\u2212"),
    (0.91, 1.04, "M\u0397\u039c\u0402\u040b\u041c\u0424\u042b\u0444\u045a"),
    (1.02, 1.12, "%@Wm\u00a9\u00ae\u00bc\u00bd\u00be\u00c6\u00e6\u0126\u0436\u0448\u0449\u0459\u2014\u2026"),
    (1.10, 1.33, "\u0152\u0153\u0409\u040a\u0416\u0428\u0429\u042e"),
]
WIDTHS = {letter: widths for *widths, letters in TABLE for letter in letters}
# Chinese characters and the like, pictures of things, and what is in no table.
SQUARE, PICTURE, OTHER = (1.05, 1.05), (1.4, 1.4), (1.2, 1.4)
# Files of fonts that have many letters, upright and bold.
FONTS = [("DejaVuSans.ttf", "DejaVuSans-Bold.ttf"), ("NotoSans-Regular.ttf", "NotoSans-Bold.ttf"), ("NotoSansCJK-Regular.ttc", "NotoSansCJK-Bold.ttc"), ("arial.ttf", "arialbd.ttf")]
# The size at which they are measured.
MEASURED = 100


@functools.lru_cache(maxsize=20_000)
def width_of(text, size, is_bold=False):
    """How wide a text is at most, in the unit of its size."""
    letters = [letter for letter in unicodedata.normalize("NFD", text) if letter in WIDTHS or unicodedata.category(letter) not in ("Mn", "Me", "Cf")]
    told = sum(width_of_letter(letter)[is_bold] for letter in letters)
    return size * (told if WIDTHS.keys() >= set(letters) else max(told, measured(text, is_bold)))


def width_of_letter(letter):
    if letter in WIDTHS:
        return WIDTHS[letter]
    if unicodedata.category(letter) == "So":
        return PICTURE
    return SQUARE if unicodedata.east_asian_width(letter) in "WF" else OTHER


def measured(text, is_bold):
    """How wide a text is in the widest of the fonts that are there, in parts of its size; nothing without Pillow."""
    return max((font.getlength(text) / MEASURED for font in fonts(is_bold)), default=0)


@functools.cache
def fonts(is_bold):
    try:
        from PIL import ImageFont
    except ImportError:
        return []
    found = []
    for files in FONTS:
        try:
            found.append(ImageFont.truetype(files[is_bold], MEASURED))
        except (OSError, ImportError):
            continue
    return found


def wrapped(text, size, most, is_bold=False):
    """The lines of a text, none of them wider. A word that is wider alone is broken."""
    lines = [""]
    for word in text.split():
        if lines[-1] and width_of(f"{lines[-1]} {word}", size, is_bold) <= most:
            lines[-1] += f" {word}"
            continue
        lines.append("")
        for letter in word:
            if lines[-1] and width_of(lines[-1] + letter, size, is_bold) > most:
                lines.append("")
            lines[-1] += letter
    return [line for line in lines if line]
