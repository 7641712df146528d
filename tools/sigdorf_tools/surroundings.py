"""What is around the work of a tool: the disk and a terminal; or, while it works for a page, the files that the page was given and a list of
what is said. So no word of a page reaches a file of the machine, and a fault names a file as its owner does."""
import contextlib
import contextvars
import os
from typing import NamedTuple


class Desk(NamedTuple):
    """Files by their names, and what was said."""

    files: dict
    said: list


# Each thread has its own; None stands for the disk and the terminal.
DESK = contextvars.ContextVar("desk", default=None)


@contextlib.contextmanager
def at(desk):
    """Work of this thread has no other files meanwhile, and is heard by nobody else."""
    before = DESK.set(desk)
    try:
        yield
    finally:
        DESK.reset(before)


def is_at_desk():
    return DESK.get() is not None


def exists(file):
    desk = DESK.get()
    return os.path.exists(file) if desk is None else file in desk.files


def content_of(file):
    """All bytes of a file."""
    desk = DESK.get()
    if desk is not None:
        if file not in desk.files:
            raise FileNotFoundError(file)
        return desk.files[file]
    with open(file, "rb") as opened:
        return opened.read()


def is_heard(sentence):
    """Whether somebody hears a sentence here, apart from whoever sits at the terminal."""
    desk = DESK.get()
    if desk is None:
        return False
    desk.said.append(sentence)
    return True
