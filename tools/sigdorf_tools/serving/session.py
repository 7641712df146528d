"""What one browser works on: a table, what was changed in it and is asked of its plan, and the last plan. It is done by the functions of
`plan`, in memory alone: the files of a session are those that the page was given."""
import argparse
import contextlib
import io
import threading
import time
import zipfile

from ..faults import Fault
from ..names import counted
from ..notes import notes_of_plan
from ..outputs import json_of
from ..planning import given_by, outcome_of, task_of, text_of
from ..sheets import WORKBOOK
from ..surroundings import Desk, at
from .edits import Edits, edits_said, with_costs
from .fields import KEPT, values_of, words_told
from .refusals import Refusal
from .views import picture_of_outcome, told_answer, told_found, told_table, told_window

# The name of a file is cut after so many letters, and a workbook may have so many bytes once it is unpacked.
LONGEST_NAME, MOST_UNPACKED = 120, 512 * 2**20


class Session:
    """Reads and plans one thing at a time. What is refused changes nothing, but that a new table takes the place of the old one even
    where it can't be read: options may tell how."""

    def __init__(self, words, files, page):
        """The words of the command, the files that they name, and the page, which has the parser, the fields and the solvers."""
        self.words, self.files, self.page = words, dict(files), page
        # Plans are counted beyond a table, so that a browser takes no picture for another one.
        self.work, self.used, self.count = threading.Lock(), time.monotonic(), 0
        self.forget_table()

    def forget_table(self):
        self.given = self.problem = self.outcome = self.answer = self.picture = None
        self.edits, self.notes = Edits(), []

    @contextlib.contextmanager
    def working(self):
        """The list of what is said meanwhile. Whoever else wants something done is refused."""
        if not self.work.acquire(blocking=False):
            raise Refusal(409, "a plan of this table is being made, and there is one at a time; wait for it")
        try:
            said = []
            with at(Desk(self.files, said)):
                yield said
        finally:
            self.work.release()
            self.used = time.monotonic()

    def take(self, name, receive):
        """A new table, which is received by a call and read as the options say: so a session has one of them in memory on its way."""
        with self.working() as said:
            content = receive()
            look_at_unpacked(content)
            name = plain_name(name)
            kept = {file: known for file, known in self.files.items() if file not in (self.words.file, KEPT)}
            self.files.clear()
            self.files.update(kept | {name: content})
            self.words = argparse.Namespace(**vars(self.words) | {"file": name, "fix": [], "forbid": [], "keep": None, "change_cost": None})
            self.forget_table()
            self.read(self.words, said)
        return self.view()

    def set_options(self, told):
        """Reads the table anew by other options. What was changed and asked stays, where its names do."""
        with self.working() as said:
            words = words_told(self.page.parser, self.page.fields, told, self.words)
            kept = self.plan_to_keep(words)
            if words.file is not None:
                self.read(words, said)
            self.words = words
            self.files.pop(KEPT, None)
            self.files.update({} if kept is None else {KEPT: kept})
        return self.view()

    def plan_to_keep(self, words):
        """Where a plan is to be kept, that is the one which is shown when this is said first."""
        if words.keep != KEPT or KEPT in self.files:
            return self.files.get(KEPT) if words.keep == KEPT else None
        if self.outcome is None or self.outcome.answer.claim.kind == "infeasible":
            raise Fault("--keep: there is no plan yet that could be kept; plan first")
        names, _, _, answer, asked, free = self.outcome
        return json_of(names, answer.claim, answer.judges, free, asked).encode()

    def read(self, words, said):
        given = given_by(words)
        is_same = self.given and has_names(given.problem, self.given.problem)
        edits = self.edits if is_same else edits_said(words, given.problem)
        problem = with_costs(given.problem, edits.costs, words.maximise)
        self.given, self.problem, self.edits, self.notes = given, problem, edits, list(said)
        self.outcome = self.answer = self.picture = None

    def plan(self, told):
        """Plans with what was changed since the last time."""
        with self.working() as said:
            if self.given is None:
                raise Refusal(409, "there is no table yet; drop one")
            begin = time.monotonic()
            edits = self.edits.and_then(told, self.given.problem)
            problem = with_costs(self.given.problem, edits.costs, self.words.maximise)
            words = self.words_with(edits)
            task = task_of(words, self.given._replace(problem=problem))
            outcome = outcome_of(words, self.page.solver_for(words), task)
            if edits.costs:
                table = f"{outcome.names.table} with {counted(len(edits.costs), 'changed cost')}"
                outcome = outcome._replace(names=outcome.names._replace(table=table))
            notes = [*said, *(f"note: {task.table.file}: {told}" for told in notes_of_plan(outcome.names, problem, outcome.answer.claim))]
            self.count += 1
            answer = told_answer(outcome, notes, time.monotonic() - begin, self.count)
            self.edits, self.problem, self.outcome, self.answer, self.picture = edits, problem, outcome, answer, None
        return self.view()

    def words_with(self, edits):
        """The words of a command that asks for what the page does."""
        problem = self.given.problem
        fix, forbid = ([f"{problem.persons[person]}={problem.objects[thing]}" for person, thing in sorted(pairs)] for pairs in (edits.fixed, edits.forbidden))
        return argparse.Namespace(**vars(self.words) | {"fix": fix, "forbid": forbid})

    def view(self):
        """All that the page shows but the cells of the table."""
        table = told_table(self.problem, self.edits) if self.problem else None
        return {"file": self.words.file, "options": values_of(self.page.fields, self.words), "notes": self.notes, "table": table, "answer": self.answer}

    def window(self, corner, size):
        if self.given is None:
            raise Refusal(409, "there is no table yet; drop one")
        return told_window(self.given.problem, self.problem, self.words.maximise, corner, size)

    def find(self, text):
        if self.given is None:
            raise Refusal(409, "there is no table yet; drop one")
        return told_found(self.given.problem, text)

    def picture_of_plan(self):
        """The picture of the plan that is shown, which is drawn once."""
        outcome, picture = self.shown(), self.picture
        if picture is None:
            picture = self.picture = picture_of_outcome(outcome)
        return picture

    def download(self, name):
        """The plan as a file: a workbook, a table, or a page to print."""
        words = argparse.Namespace(**vars(self.words) | {"output": name, "html": name.endswith(".html")})
        text = text_of(words, self.shown())
        return text if isinstance(text, bytes) else text.encode()

    def shown(self):
        if self.outcome is None:
            raise Refusal(409, "there is no plan yet; plan first")
        return self.outcome


def has_names(problem, other):
    return (problem.persons, problem.objects) == (other.persons, other.objects)


def plain_name(name):
    """The name of a file as sentences tell it, without folders."""
    name = "".join(letter if letter.isprintable() else " " for letter in name.replace("\\", "/").rpartition("/")[2])
    name = name[-LONGEST_NAME:].strip()
    return "table" if name in ("", "-") else name


def look_at_unpacked(content):
    """A workbook is packed, and may be far greater than its file."""
    if not content.startswith(WORKBOOK):
        return
    try:
        with zipfile.ZipFile(io.BytesIO(content)) as archive:
            size = sum(member.file_size for member in archive.infolist())
    except (zipfile.BadZipFile, OSError, ValueError, NotImplementedError):
        # What reads it tells it.
        return
    if size > MOST_UNPACKED:
        raise Refusal(413, f"the workbook has {size // 2**20:,} MB once it is unpacked, and may have {MOST_UNPACKED // 2**20}; save the table as CSV")
