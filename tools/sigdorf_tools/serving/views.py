"""What the page is told, as values of JSON: of a table, of a window of its cells, and of an answer. Persons and objects are told by their
numbers, from 0 on, and all texts as they are: the page puts none of them into its own words as HTML. A picture comes as it is drawn elsewhere."""
from ..amounts import amount_of
from ..pages import claim_of_owners, pairs_of, picture_of_plan, prices_of
from ..plans import blamed, by_objects, sentence_of

# So many cells a window may have to a side, and so many names of a kind are told of those that are looked for.
MOST_SIDE, MOST_FOUND = 60, 10


def told_table(problem, edits):
    return {
        "persons": len(problem.persons),
        "objects": len(problem.objects),
        "pairs": sum(arcs.count() for arcs in problem.arcs),
        "titles": problem.titles,
        "changed": [[*told_pair(problem, pair), text] for pair, text in sorted(edits.costs.items())],
        "fixed": [told_pair(problem, pair) for pair in sorted(edits.fixed)],
        "forbidden": [told_pair(problem, pair) for pair in sorted(edits.forbidden)],
    }


def told_pair(problem, pair):
    """A pair by its numbers, and by its names."""
    person, thing = pair
    return [person, thing, problem.persons[person], problem.objects[thing]]


def told_found(problem, text):
    """Persons and objects that have a text in their names, whatever its capitals."""
    text = text.casefold()
    kinds = ("persons", problem.persons), ("objects", problem.objects)
    return {kind: [[number, name] for number, name in enumerate(names) if text in name.casefold()][:MOST_FOUND] for kind, names in kinds}


def told_window(own, problem, maximise, corner, size):
    """The cells of some persons and objects, from a corner on, with the costs as they were changed, and in changed rows those of the table
    too; a pair that isn't allowed has none."""
    wanted = zip((problem.persons, problem.objects), corner, size)
    persons, objects = (range(len(names))[first : first + min(count, MOST_SIDE)] for names, first, count in wanted)

    def texts(arcs):
        costs = arcs.pairs()
        return [None if cost is None else amount_of(-cost if maximise else cost, problem.decimals, problem.mark) for cost in (costs.get(thing + 1) for thing in objects)]
    return {
        "row": persons.start,
        "column": objects.start,
        "persons": [problem.persons[person] for person in persons],
        "objects": [problem.objects[thing] for thing in objects],
        "cells": [texts(problem.arcs[person]) for person in persons],
        "own": [texts(own.arcs[person]) if own.arcs[person] is not problem.arcs[person] else None for person in persons],
    }


def told_answer(outcome, notes, seconds, count):
    """An answer in the words of `plan`: the rows that it writes, by persons and by objects; and by numbers the pairs, or who is in the way."""
    names, claim, asked = outcome.names, outcome.answer.claim, outcome.asked
    rows, has_plan = outcome.rows(), claim.kind != "infeasible"
    told = {
        "kind": claim.kind,
        "status": outcome.answer.status,
        "count": count,
        "sentence": sentence_of(names, claim, asked),
        "summary": f"{outcome.summary()}, {seconds:.1f} s",
        "wishes": list(asked.wishes),
        "notes": notes,
        "rows": rows if has_plan else [],
        "by_object": by_objects(names, rows) if has_plan else [],
        "pairs": sorted([person - 1, thing - 1] for person, thing in pairs_of(outcome.model, claim)),
    }
    return told | ({} if has_plan else told_hall(outcome))


def told_hall(outcome):
    """Who blocks whom: persons who may take too few objects, or objects that too few persons may take."""
    claim = claim_of_owners(outcome.model, outcome.answer.claim)
    names = outcome.names._replace(persons=outcome.problem.persons)
    persons, objects = blamed(names, claim)
    return {
        "persons": [[number - 1, names.person(number)] for number in dict.fromkeys(persons)],
        "objects": [[number - 1, names.object(number)] for number in dict.fromkeys(objects) if names.object(number)],
    }


def picture_of_outcome(outcome):
    names, problem, model, answer, asked, _ = outcome
    prices = prices_of(names, model, answer.claim, asked)
    return picture_of_plan(names, problem, model, answer.claim, prices, sentence_of(names, answer.claim, asked))
