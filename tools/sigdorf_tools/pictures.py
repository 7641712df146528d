"""The picture of an answer: persons above and objects below where they are few, and a heat map where they are many."""
from .drawing import Scene, drawing
from .heat_map import heat_map
from .plans import blamed, is_by_objects, sentence_of

# More persons or objects than these don't fit side by side, nor do names that are wider together, in pixels.
MOST_DRAWN, MOST_WIDE = 40, 2_000


def picture_of(names, rows, pairs, claim, prices, title=None, has_title=True):
    """The picture of a claim. The arcs come as a number of a person, of the names, with his objects and their costs;
    pairs are those of the plan, by numbers; prices are in smallest units."""
    title = title or sentence_of(names, claim)
    hall = tuple(map(set, blamed(names, claim))) if claim.kind == "infeasible" else None
    if max(len(names.persons), len(names.objects)) <= MOST_DRAWN:
        rows = list(rows)
        scene = scene_of(names, rows, pairs, prices, hall, is_by_objects(names, claim))
        if scene.width() <= MOST_WIDE:
            return drawing(scene, title, has_title)
    return heat_map(names, rows, pairs, title, hall, has_title)


def scene_of(names, rows, pairs, prices, hall, by_objects):
    """What is drawn where persons stand above and objects below."""
    arcs = [(person, thing, cost) for person, objects, costs in rows for thing, cost in sorted(zip(objects, costs))]
    if hall:
        persons, objects = hall
        told = {arc for arc in arcs if (arc[1] in objects if by_objects else arc[0] in persons)}
    else:
        persons, objects = {person for person, _ in pairs}, {thing for _, thing in pairs}
        told = {arc for arc in arcs if arc[:2] in pairs}
    all_names = names.titles, names.persons, names.objects
    return Scene(*all_names, arcs, told, names.amount, prices, persons, objects, bool(hall))
