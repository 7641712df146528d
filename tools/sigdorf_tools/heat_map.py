"""Pictures of problems of any size, as SVG: a row for each person, a column for each object, darker where the cost is greater, and the pairs of the plan on it.
Of large ones a square stands for some rows and columns."""
from xml.sax.saxutils import escape

from . import drawing
from .drawing import COST_SIZE, FAINT, HALL, INK, PAPER, TITLE_LINE, TITLE_SIZE, text_at
from .widths import width_of, wrapped

# At most so many squares down and across; how wide all of them are together, about; and the greatest and least size of one.
MOST_DOWN, MOST_ACROSS, WIDE, GREATEST, LEAST = 120, 160, 880, 16, 5
# Names stand beside squares that are as large as this, cut where they are longer than so many letters.
NAMED, LONGEST, NAME_SIZE = 11, 28, 10
LEVELS = ["#d9e7f5", "#c8dbee", "#b5cde6", "#9fbddc", "#86aad0", "#6a94c0", "#4d7aac", "#355f92", "#214573"]
PICK = "#e0701a"
MARGIN, LEGEND_LINE = 24, 19
# How large a square of the scale of costs is, and where it stands below the picture.
SCALE, SCALE_AT = 18, 14
# What isn't allowed is hatched, so that it is the colour of no cost.
HATCH = (
    '<defs><pattern id="none" width="6" height="6" patternUnits="userSpaceOnUse"><rect width="6" height="6" fill="#ffffff"/>'
    '<path d="M-1 7L7 -1" stroke="#b9b2a6" stroke-width="1"/></pattern></defs>'
)


class Grid:
    """Squares that stand for some persons and objects each: how many arcs they have, and what these cost together."""

    def __init__(self, persons, objects):
        self.down, self.across = -(-persons // MOST_DOWN), -(-objects // MOST_ACROSS)
        self.rows, self.columns = -(-persons // self.down), -(-objects // self.across)
        self.counts = [[0] * self.columns for _ in range(self.rows)]
        self.sums = [[0] * self.columns for _ in range(self.rows)]
        self.size = max(LEAST, min(GREATEST, WIDE // max(self.columns, self.rows)))

    def square(self, person, thing):
        """The row and column of the square of a pair."""
        return (person - 1) // self.down, (thing - 1) // self.across

    def add(self, person, objects, costs):
        row = (person - 1) // self.down
        counts, sums, across = self.counts[row], self.sums[row], self.across
        for thing, cost in zip(objects, costs):
            column = (thing - 1) // across
            counts[column] += 1
            sums[column] += cost

    def means(self):
        """The mean cost of each square that has arcs, by its row and column."""
        return {(row, column): self.sums[row][column] / count for row, counts in enumerate(self.counts) for column, count in enumerate(counts) if count}

    def levels(self, means):
        """The level of each square, by the least and the greatest mean."""
        least, most = min(means.values(), default=0), max(means.values(), default=0)
        return {place: min(int((mean - least) / (most - least or 1) * len(LEVELS)), len(LEVELS) - 1) for place, mean in means.items()}

    def is_whole(self):
        """Whether each square is one pair."""
        return self.down == self.across == 1


def heat_map(names, rows, picks, title, hall=None, has_title=True):
    """The text of the picture. The arcs of each person come as his number, objects and costs; picks are pairs of numbers; a Hall set is two lists of numbers, of persons and objects."""
    grid = Grid(len(names.persons), len(names.objects))
    for person, objects, costs in rows:
        grid.add(person, objects, [-cost for cost in costs] if names.maximise else costs)
    has_names = grid.is_whole() and grid.size >= NAMED
    left = MARGIN + (max(width_of(cut(name), NAME_SIZE) for name in names.persons) if has_names else width_of("0" * 6, NAME_SIZE)) + 10
    above = (max(width_of(cut(name), NAME_SIZE) for name in names.objects) if has_names else NAME_SIZE) + 34
    legend = legend_of(grid, hall)
    width = max(left + grid.size * grid.columns + MARGIN, 2 * MARGIN + max(width_of(line, COST_SIZE) for line in legend))
    title_lines = wrapped(title, TITLE_SIZE, width - 2 * MARGIN, True) if has_title else []
    top = 30 + TITLE_LINE * len(title_lines) + above
    bottom = top + grid.size * grid.rows
    legend_at, means = bottom + SCALE_AT + SCALE + 30, grid.means()
    height = legend_at + LEGEND_LINE * len(legend)
    parts = [
        f'<svg xmlns="http://www.w3.org/2000/svg" viewBox="0 0 {width:.0f} {height:.0f}" width="{width:.0f}" height="{height:.0f}" font-family="Helvetica, Arial, DejaVu Sans, sans-serif">',
        f"<title>{escape(title)}</title>",
        HATCH,
        f'<rect width="100%" height="100%" fill="{PAPER}"/>',
        *(text_at(MARGIN, 40 + TITLE_LINE * place, line, INK, TITLE_SIZE, "start", "bold") for place, line in enumerate(title_lines)),
        *labels(names, grid, left, top, has_names),
        f'<g transform="translate({left:.1f} {top:.1f})">',
        *squares(grid, means),
        *(marks_of_hall(grid, *hall) if hall else ()),
        *picked(grid, picks),
        "</g>",
        *scale_of(names, means, bottom + SCALE_AT),
        *(text_at(MARGIN, legend_at + LEGEND_LINE * place, line, FAINT, COST_SIZE, "start") for place, line in enumerate(legend)),
        "</svg>",
    ]
    return "\n".join(parts) + "\n"


def legend_of(grid, hall):
    each = "a square is a pair" if grid.is_whole() else f"a square is {grid.down} by {grid.across} pairs"
    told = "red: who is in the way of a plan, and all that they may take" if hall else "orange: the plan"
    return [f"{each}; hatched: none is allowed; the darker, the greater the cost", told]


def scale_of(names, means, top):
    """The colours of costs, between the least and the greatest one."""
    if not means:
        return
    least, most = (names._replace(maximise=False).amount(round(end(means.values()))) for end in (min, max))
    left = MARGIN + width_of(least, COST_SIZE) + 8
    yield text_at(MARGIN, top + SCALE - 5, least, FAINT, COST_SIZE, "start")
    for place, level in enumerate(LEVELS):
        yield f'<rect x="{left + SCALE * place:.1f}" y="{top:.1f}" width="{SCALE}" height="{SCALE}" fill="{level}"/>'
    yield text_at(left + SCALE * len(LEVELS) + 8, top + SCALE - 5, most, FAINT, COST_SIZE, "start")


def cut(name):
    return drawing.cut(name, LONGEST)


def labels(names, grid, left, top, has_names):
    """Names of rows and columns, or numbers of some of them."""
    yield text_at(MARGIN, top - 8 if not has_names else top - 6, names.titles[0], FAINT, 11, "start")
    yield text_at(left, top - (22 if not has_names else 18 + max(width_of(cut(name), NAME_SIZE) for name in names.objects)), names.titles[1], FAINT, 11, "start")
    step = 1 if has_names else max(1, grid.rows // 10)
    for row in range(0, grid.rows, step):
        text = cut(names.persons[row]) if has_names else str(row * grid.down + 1)
        yield text_at(left - 6, top + grid.size * (row + 0.5) + 3.5, text, INK, NAME_SIZE, "end")
    step = 1 if has_names else max(1, grid.columns // 8)
    for column in range(0, grid.columns, step):
        x = left + grid.size * (column + 0.5)
        if has_names:
            yield f'<g transform="translate({x + 3.5:.1f} {top - 6:.1f}) rotate(-90)">{text_at(0, 0, cut(names.objects[column]), INK, NAME_SIZE, "start")}</g>'
        else:
            yield text_at(x, top - 6, str(column * grid.across + 1), INK, NAME_SIZE)


def squares(grid, means):
    """A path for each level: so that even large pictures are short."""
    paths = {}
    yield f'<rect width="{grid.columns * grid.size}" height="{grid.rows * grid.size}" fill="url(#none)"/>'
    for (row, column), level in grid.levels(means).items():
        paths.setdefault(level, []).append(f"M{column * grid.size} {row * grid.size}h{grid.size}v{grid.size}h-{grid.size}z")
    for level, path in sorted(paths.items()):
        yield f'<path fill="{LEVELS[level]}" d="{"".join(path)}"/>'
    yield f'<rect width="{grid.columns * grid.size}" height="{grid.rows * grid.size}" fill="none" stroke="{FAINT}" stroke-width="0.8"/>'


def picked(grid, picks):
    # Among squares that stand for more pairs a mark stands out less.
    inset = grid.size * (0.18 if grid.is_whole() else 0.04)
    for row, column in sorted({grid.square(*pair) for pair in picks}):
        side = grid.size - 2 * inset
        yield f'<rect x="{column * grid.size + inset:.1f}" y="{row * grid.size + inset:.1f}" width="{side:.1f}" height="{side:.1f}" rx="{side / 4:.1f}" fill="{PICK}"/>'


def marks_of_hall(grid, persons, objects):
    """The rows and columns of a Hall set."""
    wide, high = grid.columns * grid.size, grid.rows * grid.size
    for row in sorted({grid.square(person, 1)[0] for person in persons}):
        yield f'<rect x="0" y="{row * grid.size}" width="{wide}" height="{grid.size}" fill="{HALL}" fill-opacity="0.25"/>'
    for column in sorted({grid.square(1, thing)[1] for thing in objects}):
        yield f'<rect x="{column * grid.size}" y="0" width="{grid.size}" height="{high}" fill="{HALL}" fill-opacity="0.25"/>'
