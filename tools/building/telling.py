"""What a build says on standard error: on a terminal one line that is rewritten, elsewhere a line a crate."""
import contextlib
import os
import sys
import threading
import time

TAKE_AWAY = "\r\x1b[K"
# Of a terminal that doesn't tell how wide it is.
USUAL_WIDTH = 80


class Told:
    """The crates that are being built, and the sentences about them. A terminal that is closed meanwhile takes no
    more of them."""

    def __init__(self, wanted, names, estimate):
        self.wanted, self.many, self.estimate = wanted, len(names), estimate
        self.waiting, self.begun, self.done = set(names), {}, 0
        self.start, self.lock = time.monotonic(), threading.Lock()

    def minutes(self):
        return (time.monotonic() - self.start) / 60

    def begin(self, name):
        with self.lock:
            self.waiting.remove(name)
            self.begun[name] = self.minutes()

    def end(self, name, is_built):
        """Tells that a crate is done; gives the minutes that it took."""
        with self.lock:
            minutes = self.minutes() - self.begun.pop(name)
            self.done += is_built
            self.estimate.note(name, minutes)
        if is_built and not sys.stderr.isatty():
            self.say(f"{self.done:2} of {self.many} built, {name} in {minutes:.1f} minutes; {self.left()}")
        return minutes

    def left(self):
        running = {name: self.minutes() - begun for name, begun in self.begun.items()}
        left = self.estimate.minutes_left(self.waiting, running)
        return f"{self.minutes():.0f} minutes so far, some {left:.0f} to go"

    def sign(self):
        """The one line of a terminal, anew."""
        if sys.stderr.isatty():
            width = os.get_terminal_size(sys.stderr.fileno()).columns or USUAL_WIDTH
            line = f"{self.wanted}: {self.left()}; {self.done} of {self.many} built, now {', '.join(self.begun)}"
            write(f"{TAKE_AWAY}{line[: width - 1]}")

    def say(self, sentence):
        say(self.wanted, sentence)


def say(wanted, sentence):
    """One sentence about a build, in the place of a line that is rewritten."""
    write(f"{TAKE_AWAY if sys.stderr.isatty() else ''}{wanted}: {sentence}\n")


def write(text):
    with contextlib.suppress(OSError, ValueError):
        sys.stderr.write(text)
        sys.stderr.flush()
