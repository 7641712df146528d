"""From the words of a command to the answer that they ask for: a table is read, becomes a task for the solver, and has an outcome. `plan`
does that once, and the page that it serves over and over."""
import time
from typing import NamedTuple

from .conversion import Extras, names_of, read_problem
from .demands import demand_of, is_asked, is_wide, network_of
from .faults import Fault
from .keeping import Changes, changes_of, with_changes, with_own_costs
from .kinds import Asked, wishes_said
from .models import look_at_size
from .names import Names
from .notes import note
from .options import is_book
from .outputs import json_of, json_of_reasons, text_of_rows
from .plans import Free, by_objects, rows_of_plan, summary_of
from .problems import Problem
from .reasons import rows_of_reasons
from .searches import Plans
from .solving import Answer
from .wishes import Wishes, capacities_said, copies_of, model_of


class Given(NamedTuple):
    """A table, or its text, its problem, and what columns and rows of it tell of persons and objects, by their options."""

    table: object
    problem: Problem
    told: dict


class Task(NamedTuple):
    """What is to be planned: the table and its problem, the model that the solver is given, and the old plan that is kept, if one is."""

    table: object
    problem: Problem
    model: object
    changes: Changes | None


class Outcome(NamedTuple):
    """The answer for a task, the model that it is the best one of, and all that it takes to tell it."""

    names: Names
    problem: Problem
    model: object
    answer: Answer
    asked: Asked
    free: Free

    def summary(self):
        return summary_of(self.names, self.answer.claim, self.answer.judges, self.asked)

    def rows(self):
        return rows_of_plan(self.names, self.answer.claim, self.free, self.asked)


def given_by(words):
    """The table that the words name, as they say that it is to be read."""
    for one, others in (("capacity", ["column"]), ("leave_free", ["column"]), *((one, ["column", "row"]) for one in ("need", "apart", "undone"))):
        said = [option for option in (one, *(f"{one}_{other}" for other in others)) if getattr(words, option) is not None]
        if len(said) > 1:
            raise Fault(f"{' and '.join(f'--{option}'.replace('_', '-') for option in said)}: both say the same thing; leave one of them out")
    options = ("capacity_column", "leave_free_column"), ("need_column", "apart_column", "undone_column"), ("need_row", "apart_row", "undone_row")
    extras = ({option: getattr(words, option) for option in each if getattr(words, option) is not None} for each in options)
    return Given(*read_problem(words, Extras(*extras)))


def task_of(words, given):
    """The task of a table and all wishes for its plan."""
    table, problem, told = given
    changes = changes_of(words, problem)
    model = model_asked(words, with_changes(problem, changes) if changes else problem, told)
    look_at_size(table.file, model)
    return Task(table, problem, model, changes)


def model_asked(words, problem, told):
    """The model of a problem with the wishes that the words tell, and columns and rows of the table by their options."""
    wishes = wishes_of(words, told, set(problem.persons))
    copies = copies_of(problem, wishes, words.maximise)
    if is_asked(words):
        network = network_of(problem, wishes, copies, demand_of(words, problem, told))
        asks_apart = any(word is not None for word in (words.apart, words.apart_column, words.apart_row))
        if asks_apart and len(set(copies.owners)) == len(copies.owners):
            note("--apart changes nothing, since nobody may take more than one object; say --capacity too")
        return network
    model = model_of(problem, wishes, copies)
    return network_of(problem, wishes, copies, demand_of(words, problem)) if is_wide(words, model) else model


def wishes_of(words, told, persons):
    """The wishes that the words, and columns by their options, tell of these persons."""
    everybody = {} if words.leave_free is None else {None: (f"--leave-free {words.leave_free}", words.leave_free)}
    capacities = told["capacity_column"] if "capacity_column" in told else capacities_said(words.capacity, persons)
    return Wishes(capacities, told.get("leave_free_column", everybody), words.fix, words.forbid)


def outcome_of(words, solver, task):
    """The outcome of a task."""
    plans, names = Plans(solver, task.table.file), names_of(words, task.table, task.problem, task.model)
    answer, asked, model = answer_of(words, plans, task.model)
    if task.changes:
        answer, asked = answer._replace(claim=with_own_costs(names, answer.claim, task.changes)), asked._replace(changes=task.changes)
    return Outcome(names, task.problem, model, answer, asked, free_of(words, task.problem, model))


def answer_of(words, plans, model):
    """The answer that is asked for, of what kind it is, and the model that it is the best one of."""
    wishes = wishes_said(words)
    if words.fair:
        answer, greatest = plans.fair(model)
        return answer, Asked("fair", wishes, greatest), model if greatest is None else model.up_to(greatest)
    answer = plans.answer(model)
    if answer.claim.kind != "optimal" and (words.second or words.why):
        raise Fault(f"{plans.name}: {'--second' if words.second else '--why'} asks for a best plan, and there is none; plan without it to see why")
    if not words.second:
        return answer, Asked("best", wishes, parts=answer.parts), model
    second, model = plans.second(model, answer)
    if second is None:
        raise Fault(f"{plans.name}: --second: there is no plan but the best one; allow more pairs")
    return second, Asked("second", wishes, answer.claim.cost), model


def free_of(words, problem, model):
    """Who stays free whatever the answer is, and what is told of those who do."""
    owners = set(model.owners)
    absent = [name for place, name in enumerate(problem.persons) if place not in owners]
    has_prices = bool(model.free) and (words.leave_free is not None or words.leave_free_column is not None)
    demand = getattr(model, "demand", None)
    return Free(absent, has_prices, demand and demand.needs, demand and demand.undone)


def text_of(words, outcome):
    """What is written: the plan in its form, or why somebody has what he has."""
    names, problem, model, answer, asked, free = outcome
    if words.why is not None:
        names = names.for_programs() if words.json else names
        rows = rows_of_reasons(names, problem, model, answer.claim, words.why)
        return json_of_reasons(names, rows) if words.json else text_of_rows(names, rows)
    if words.json:
        return json_of(names, answer.claim, answer.judges, free, asked)
    if words.html or is_book(words.output):
        return written(words)(names, problem, model, answer.claim, free, asked, outcome.summary(), time.strftime("%Y-%m-%d %H:%M"))
    is_turned = words.by in ("job", "object") and answer.claim.kind != "infeasible"
    return text_of_rows(names, by_objects(names, outcome.rows()) if is_turned else outcome.rows())


def written(words):
    """What writes a page or a workbook. These modules are loaded where they are wanted, since that takes a while."""
    if words.html:
        from .pages import page_of
        return page_of
    from .workbooks import workbook_of
    return workbook_of
