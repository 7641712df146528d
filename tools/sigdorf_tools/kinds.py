"""What was asked for, and of which plans an answer is the least. It is told alike in the line on standard error, in
JSON and on the page."""
from typing import NamedTuple

# What an answer is called for programs, where the search came to its end.
ANSWERS = {"best": "best", "second": "second best", "fair": "fair"}
# Options that narrow which plans there are: those that are said once, and those that may be said more often.
SINGLE = "capacity", "capacity_column", "leave_free", "leave_free_column", "need", "need_column", "need_row"
SINGLE += "apart", "apart_column", "apart_row", "undone", "undone_column", "undone_row", "keep", "change_cost"
SEVERAL = "fix", "forbid"
JUDGES = ["the proved checker", "a second one"]


class Asked(NamedTuple):
    """The kind of plan, `best`, `second` or `fair`; the wishes for it, as they were said; what stands beside its total:
    of a second best plan the total of the best one, of a fair plan the cost that no plan betters; the old plan that is kept
    as far as it pays, if there is one; and how many answers of the solver the answer is put together from."""

    kind: str = "best"
    wishes: tuple = ()
    beside: int | None = None
    changes: object = None
    parts: int = 1

    def within(self):
        """Which plans all that is said is about: all, or those that the wishes allow."""
        return " within the wishes" if self.wishes else ""

    def fields(self, names, number):
        """What JSON tells of it; number makes a number of an amount."""
        told = {"kind": self.kind, "wishes": list(self.wishes)} | ({"assignments": self.parts} if self.parts > 1 else {})
        if self.beside is None:
            return told
        title = "best_total" if self.kind == "second" else "least_cost" if names.maximise else "greatest_cost"
        return told | {title: number(names.amount(self.beside))}


def wishes_said(words):
    """The wishes that the words of a command tell, one by one."""
    said = [(option, getattr(words, option, None)) for option in SINGLE if getattr(words, option, None) is not None]
    said += [(option, word) for option in SEVERAL for word in getattr(words, option)]
    return tuple(f"--{option.replace('_', '-')} {word}" for option, word in said)


def fairness(names, asked):
    """What a fair plan is fair by."""
    word, cost = "least" if names.maximise else "greatest", names.amount(asked.beside)
    return f"the {word} cost is {cost}, and no plan{asked.within()} has a better one"


def gap_of(names, claim):
    """How far a plan is from the best one at most."""
    return names._replace(maximise=False).amount(claim.cost - claim.lower)


def sentence_of_plan(names, claim, asked):
    """A plan in one sentence."""
    if claim.kind == "bracket":
        return sentence_of_bracket(names, claim, asked)
    best, total, within = "greatest" if names.maximise else "least", names.amount(claim.cost), asked.within()
    if asked.kind == "second":
        of_best = names.amount(asked.beside)
        return f"The second best plan{within}: its total is {total}, and that of the best one is {of_best}."
    if asked.kind == "fair":
        fair = fairness(names, asked)
        return f"A fair plan{within}: {fair}; of the plans that have it the {best} total is {total}."
    return f"A best plan{within}: the {best} total{' that they allow' if asked.wishes else ''} is {total}.{put_together(asked)}"


def sentence_of_bracket(names, claim, asked):
    """A plan of a search that was stopped, in one sentence."""
    fair = f" {fairness(names, asked)}; of the plans that have it" if asked.kind == "fair" else ""
    within = "" if fair else asked.within()
    far = f"this plan is at most {gap_of(names, claim)} from the best{within}"
    bound = f"no total{within} is {'above' if names.maximise else 'below'} {names.amount(claim.lower)}"
    return f"The search was stopped early:{fair} {far}, and {bound}.{put_together(asked)}"


def put_together(asked, what="assignments"):
    """What is proved of an answer that is put together from several ones, and what isn't."""
    return f" {asked.parts} {what} show it: each of them is proved, and that they leave no plan out is not." if asked.parts > 1 else ""


def sentence_of_no_parts(asked):
    """That there is no plan, as none of the parts has one that the problem was parted into."""
    told = f"No plan{asked.within()} keeps all objects apart that can't go together: with --undone or --leave-free something may stay open."
    return told + put_together(asked, "problems without a plan")


def rank_of(names, claim, asked):
    """Of which plans the total is the least, or how far from it, in half a sentence."""
    within = asked.within()
    if asked.kind == "second":
        gap = names._replace(maximise=False).amount(claim.cost - asked.beside)
        return f"the second best{within}, {gap} from the best, which has {names.amount(asked.beside)}"
    is_best, told = claim.kind == "optimal", f"the {'greatest' if names.maximise else 'least'}"
    told = told if is_best else f"at most {gap_of(names, claim)} from the best"
    if asked.kind == "fair":
        return f"{told} of all fair plans{within}: {fairness(names, asked)}"
    return told + (within or (" of all" if is_best else "")) + (f" as {asked.parts} assignments show" if asked.parts > 1 else "")


def among(names, asked):
    """Among what everybody has the best for himself at the prices of an answer, which are of the problem that it
    solves."""
    if asked.kind == "second":
        return f" of all{asked.within()} but one thing that the best plan has and this one mustn't"
    if asked.kind == "fair":
        limit = f"at {'least' if names.maximise else 'most'} {names.amount(asked.beside)}"
        return f" of all pairs{asked.within()} that cost {limit}"
    return " of all that the wishes allow" if asked.wishes else ""


def judged_by(judges, asked=Asked()):
    """Who looked whether an answer is true."""
    told = f"checked by {' and by '.join(JUDGES[: len(judges)])}"
    return f"each one {told}, and that they leave no plan out isn't proved" if asked.parts > 1 else told
