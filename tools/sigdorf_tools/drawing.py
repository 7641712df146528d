"""Pictures of small problems, as SVG: persons above, objects below, arcs between them, prices as bars; of a Hall set, who is in it."""
from typing import NamedTuple
from xml.sax.saxutils import escape

from .widths import width_of, wrapped

INK, FAINT, PAPER = "#22262b", "#747c85", "#ffffff"
PLAN, ARC, BAR, HALL = "#1b5fa7", "#c3c9d0", "#e0a030", "#b8322a"
PLAN_FILL, PLAIN_FILL, HALL_FILL = "#e6f0fa", "#f4f5f7", "#fbe4e1"
# Places and sizes, in pixels. A picture is laid out from the top of the names of persons on; its title stands above that.
BOX_HEIGHT, OBJECTS_AT, BARS_AT, BAR_MOST, LEFT, RIGHT = 36, 220, 268, 84, 104, 28
TITLE_LINE, LEGEND_LINE = 26, 19
TITLE_SIZE, NAME_SIZE, PRICE_SIZE, COST_SIZE = 20, 15, 13, 12.5
# Names are cut where they are longer than so many letters.
LONGEST = 40
MOST_LABELS = 80
LEGEND = ["thick: the plan; thin: other pairs; numbers: costs", "bars: prices, in the unit of costs"]
HALL_LEGEND = ["red: who is in the way of a plan, and all that they may take"]


def cut(name, longest=LONGEST):
    return name if len(name) <= longest else name[: longest - 2] + ".."


class Label(NamedTuple):
    """A text in the middle of a box."""

    x: float
    y: float
    text: str
    colour: str

    def width(self):
        return width_of(self.text, COST_SIZE, True) + 8

    def meets(self, other):
        return abs(self.x - other.x) < (self.width() + other.width()) / 2 and abs(self.y - other.y) < 17

    def lies_on(self, line):
        """Whether a line, told by its two ends, goes through the box."""
        x1, y1, x2, y2 = line
        slope = (x2 - x1) / (y2 - y1)
        return abs(x1 + slope * (self.y - y1) - self.x) < self.width() / 2 + 9 * abs(slope) + 3


class Scene(NamedTuple):
    """What is drawn: all names, the arcs (person, object, cost) by their numbers from 1 on, and those of them that
    stand out; how a cost is told; the prices; who and what stand out, which are those of the plan or of the Hall set,
    and whether it is one."""

    titles: list
    persons: list
    objects: list
    arcs: list
    arcs_told: set
    amount: object
    prices: list
    persons_told: set
    objects_told: set
    is_hall: bool

    def has_bars(self):
        """Whether there are prices to be drawn."""
        return bool(self.prices) and not self.is_hall

    def step(self):
        """From the middle of a name to the middle of the next one."""
        prices = () if self.is_hall else map(self.price, self.prices[: len(self.objects)])
        names = max(width_of(cut(name), NAME_SIZE) for name in self.persons + self.objects)
        return max(108, names + 44, max((width_of(text, PRICE_SIZE) for text in prices), default=0) + 16)

    def price(self, price):
        """The text of a price, which is told as a cost, but never in the sign of one that was negated."""
        return self.amount(price).lstrip("-")

    def left(self):
        """Where the first name begins: after the titles."""
        return max(LEFT, max(width_of(cut(title), PRICE_SIZE) for title in self.titles[:2]) + 40)

    def x(self, number, names):
        """The middle of a name in its row; the shorter row stands in the middle of the picture."""
        columns = max(len(self.persons), len(self.objects))
        return self.left() + self.step() * (number - 0.5 + (columns - len(names)) / 2)

    def width(self):
        legend = max(width_of(line, COST_SIZE) for line in LEGEND + HALL_LEGEND) + 48
        return max(self.left() + RIGHT + self.step() * max(len(self.persons), len(self.objects)), legend)

    def labelled(self):
        """The arcs whose costs are written: all, or where they are too many those that matter, or none."""
        told = [arc for arc in self.arcs if self.is_told(arc)]
        return next((arcs for arcs in (self.arcs, told) if len(arcs) <= MOST_LABELS), [])

    def is_told(self, arc):
        """Whether an arc is of the plan; or, where there is none, of those who are in its way."""
        return arc in self.arcs_told


def drawing(scene, title, has_title=True):
    """The text of the picture, in which the title is shown, or stands for those who can't see it alone."""
    width = scene.width()
    title_lines = wrapped(title, TITLE_SIZE, width - 2 * 24, True) if has_title else []
    legend = HALL_LEGEND if scene.is_hall else LEGEND if scene.prices else LEGEND[:1]
    legend_at = BARS_AT + BAR_MOST + 52 if scene.has_bars() else OBJECTS_AT + BOX_HEIGHT + 40
    top, height = 26 + TITLE_LINE * len(title_lines) + 20, legend_at + LEGEND_LINE * len(legend)
    parts = [
        f'<svg xmlns="http://www.w3.org/2000/svg" viewBox="0 0 {width:.0f} {top + height}" width="{width:.0f}" height="{top + height}" font-family="Helvetica, Arial, DejaVu Sans, sans-serif">',
        f"<title>{escape(title)}</title>",
        f'<rect width="100%" height="100%" fill="{PAPER}"/>',
        *(text_at(24, 40 + TITLE_LINE * place, line, INK, TITLE_SIZE, "start", "bold") for place, line in enumerate(title_lines)),
        f'<g transform="translate(0 {top})">',
        text_at(24, 23, cut(scene.titles[0]), FAINT, PRICE_SIZE, "start"),
        text_at(24, OBJECTS_AT + 23, cut(scene.titles[1]), FAINT, PRICE_SIZE, "start"),
        *lines(scene),
        *(box(scene.x(number, scene.persons), 0, name, *colours(scene, number in scene.persons_told)) for number, name in enumerate(scene.persons, 1)),
        *(box(scene.x(number, scene.objects), OBJECTS_AT, name, *colours(scene, number in scene.objects_told)) for number, name in enumerate(scene.objects, 1)),
        *costs(scene),
        *(bars(scene) if scene.has_bars() else []),
        *(text_at(24, legend_at + LEGEND_LINE * place, line, FAINT, COST_SIZE, "start") for place, line in enumerate(legend)),
        "</g>",
        "</svg>",
    ]
    return "\n".join(parts) + "\n"


def colours(scene, is_told):
    """Fill, border and ink of a name."""
    if not is_told:
        return PLAIN_FILL, ARC, FAINT
    return (HALL_FILL, HALL, INK) if scene.is_hall else (PLAN_FILL, PLAN, INK)


def text_at(x, y, text, colour, size, anchor="middle", weight="normal"):
    return f'<text x="{x:.1f}" y="{y:.1f}" font-size="{size}" fill="{colour}" text-anchor="{anchor}" font-weight="{weight}">{escape(text)}</text>'


def box(x, y, name, fill, border, ink):
    name = cut(name)
    width = width_of(name, NAME_SIZE) + 28
    rectangle = f'<rect x="{x - width / 2:.1f}" y="{y}" width="{width:.1f}" height="{BOX_HEIGHT}" rx="8" fill="{fill}" stroke="{border}" stroke-width="1.5"/>'
    return rectangle + text_at(x, y + 23, name, ink, NAME_SIZE)


def ends(scene, arc):
    """Where the line of an arc begins and ends."""
    return scene.x(arc[0], scene.persons), BOX_HEIGHT, scene.x(arc[1], scene.objects), OBJECTS_AT


def lines(scene):
    """The arcs: thin ones first, so that those that matter lie on top."""
    for arc in sorted(scene.arcs, key=scene.is_told):
        colour, width = (ARC, 1.3) if not scene.is_told(arc) else (HALL, 2.6) if scene.is_hall else (PLAN, 4.5)
        x1, y1, x2, y2 = ends(scene, arc)
        yield f'<line x1="{x1:.1f}" y1="{y1}" x2="{x2:.1f}" y2="{y2}" stroke="{colour}" stroke-width="{width}" stroke-linecap="round"/>'


def costs(scene):
    """The cost of each arc, on its line near the person, or further on where it would hide something. Arcs that matter come first."""
    placed, arcs = [], scene.labelled()
    for arc in sorted(arcs, key=lambda arc: not scene.is_told(arc)):
        colour = FAINT if not scene.is_told(arc) else HALL if scene.is_hall else PLAN
        x1, y1, x2, y2 = ends(scene, arc)
        choices = [Label(x1 + (x2 - x1) * part / 100, y1 + (y2 - y1) * part / 100, scene.amount(arc[2]), colour) for part in range(17, 84, 3)]
        label = min(choices, key=lambda label: hidden_by(scene, label, [other for other in arcs if other != arc], placed))
        placed.append(label)
        weight = "bold" if colour != FAINT else "normal"
        yield f'<rect x="{label.x - label.width() / 2:.1f}" y="{label.y - 9:.1f}" width="{label.width():.1f}" height="18" rx="4" fill="{PAPER}"/>'
        yield text_at(label.x, label.y + 4.5, label.text, colour, COST_SIZE, weight=weight)


def hidden_by(scene, label, others, placed):
    """How much the label of an arc would hide of the others: labels that are placed count most, thick lines less, thin lines least."""
    crossed = [other for other in others if label.lies_on(ends(scene, other))]
    return 9 * sum(map(label.meets, placed)) + sum(3 if scene.is_told(other) else 1 for other in crossed)


def bars(scene):
    """The price of each object as a bar below it, and as a number in the unit of costs."""
    prices = scene.prices[: len(scene.objects)]
    most = max(max(prices), 1)
    top = BARS_AT
    yield text_at(24, top + 13, "price", FAINT, PRICE_SIZE, "start")
    yield f'<line x1="{scene.left():.1f}" y1="{top}" x2="{scene.width() - RIGHT:.1f}" y2="{top}" stroke="{ARC}" stroke-width="1"/>'
    for number, price in enumerate(prices, 1):
        height = BAR_MOST * price / most
        x = scene.x(number, scene.objects)
        yield f'<rect x="{x - 22:.1f}" y="{top}" width="44" height="{height:.1f}" fill="{BAR}"/>'
        yield text_at(x, top + height + 17, scene.price(price), INK, PRICE_SIZE)
