"""A line on a terminal that tells what goes on, where it takes longer than one would wait without a word."""
import contextlib
import sys
import threading
import time

from .faults import TAKE_AWAY

# After so many seconds the line comes, and so often it is told anew.
QUIET, STEP = 2.0, 0.5


class Progress:
    """What goes on now, and since when all of it does."""

    def __init__(self):
        self.begin, self.stage = time.monotonic(), "reading the table"

    def seconds(self):
        return time.monotonic() - self.begin

    def leave_out(self, work):
        """Does some work whose time isn't counted."""
        begin = time.monotonic()
        work()
        self.begin += time.monotonic() - begin

    @contextlib.contextmanager
    def told(self, output=None):
        """Tells it on standard error, if that is a terminal, as long as the block lasts; then the line is gone."""
        output = output or sys.stderr
        if not output.isatty():
            yield
            return
        is_over = threading.Event()
        teller = threading.Thread(target=self.tell, args=(is_over, output), daemon=True)
        teller.start()
        try:
            yield
        finally:
            is_over.set()
            teller.join()

    def tell(self, is_over, output):
        has_told, wait = False, QUIET - self.seconds()
        while not is_over.wait(max(wait, 0)):
            output.write(f"{TAKE_AWAY}{self.stage}, {self.seconds():.0f} s ")
            output.flush()
            has_told, wait = True, STEP
        if has_told:
            output.write(TAKE_AWAY)
            output.flush()
