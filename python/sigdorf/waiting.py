"""Long searches: when they are to end, and how Ctrl-C ends them, by the watch that the library asks."""
import contextlib
import math
import os
import threading
import time

from .arguments import attempt
from .progress import Progress

# The most that are added to a time; the clock is far below this.
NANOSECONDS, MOST_NANOSECONDS = 10**9, 2**62
# So many seconds at most it takes a thread to begin.
MOMENT = 1
# A search reads so many bytes of a pipe that ends it; so many searches may be under way together.
MOST_READ, MOST_CALLS = 8, 4_096


def seconds_of(value):
    """A limit of time in seconds: a finite number from 0, or infinity for None."""
    if value is None:
        return math.inf
    found = None if isinstance(value, (bool, str, bytes)) else attempt(float, value)
    if found is None or not 0 <= found < math.inf:
        raise ValueError("seconds must be a number from 0")
    return found


class Watch:
    """When searches are to end, by :func:`time.monotonic_ns`, or 0; what ends them before; and whom they tell how far they are, or None."""

    def __init__(self, seconds=math.inf, progress=None, began=0):
        self._until = 0 if math.isinf(seconds) else began + int(min(seconds * NANOSECONDS, MOST_NANOSECONDS))
        self.progress, self._stop = progress, None

    def is_over(self):
        """Whether the time has come at which searches end."""
        return self._until != 0 and time.monotonic_ns() >= self._until

    def stopping(self):
        """The pipe that ends all searches as soon as it is written to."""
        if self._stop is None:
            self._stop = Pipe()
        return self._stop

    def words(self, records=None):
        """The watch as the extension takes it."""
        return self._until, -1 if self._stop is None else self._stop.reads, -1 if records is None else records.writes


class Pipe:
    """The two ends of a pipe. They are closed when nobody has them any more, since a thread may use them longer than who began it."""

    reads = writes = None

    def __init__(self):
        self.reads, self.writes = os.pipe()
        os.set_blocking(self.writes, False)

    def write(self):
        """Ends the searches, each of which reads some bytes."""
        with contextlib.suppress(BlockingIOError):
            os.write(self.writes, bytes(MOST_READ * MOST_CALLS))

    def end(self):
        """Closes the end for writing, so that a reader has all."""
        writes, self.writes = self.writes, None
        os.close(writes)

    def __del__(self):
        for end in (self.reads, self.writes):
            if end is not None:
                os.close(end)


def watch_of(seconds, progress, maximize, began):
    """The Watch of a caller's limit of time, and of what it has to call, or None. A ValueError says what is at fault."""
    if seconds is None and progress is None:
        return None
    if progress is not None and not callable(progress):
        raise ValueError("progress must be something to call, with a bound and a cost")
    return Watch(seconds_of(seconds), None if progress is None else Progress(progress, maximize), began)


def time_limit(seconds):
    """The Watch of a limit of time alone, from now on, or None. A ValueError says that it is at fault."""
    return None if seconds is None else Watch(seconds_of(seconds), None, time.monotonic_ns())


def call_waiting(is_long, watch, call, *arguments):
    """What a call of the library answers. Its last argument is what it is watched by: when it ends, and descriptors, or None.

    KeyboardInterrupt is raised in the main thread alone, and not within a call of C. So a long call from there is made by another thread, while
    this one waits, and so is one that has whom to tell. Whatever is raised meanwhile ends the search, and then goes on to the caller.
    """
    tells = watch is not None and watch.progress is not None
    if tells or is_long and threading.current_thread() is threading.main_thread():
        return _in_thread(watch or Watch(), call, arguments)
    return call(*arguments, None if watch is None else watch.words())


def _in_thread(watch, call, arguments):
    try:
        stop, records = watch.stopping(), Pipe() if watch.progress else None
    except OSError:
        # No descriptor is left: the call doesn't want any, and ends where it ends.
        if watch.progress:
            raise
        return call(*arguments, watch.words())
    done, answers = threading.Event(), []
    given = call, (*arguments, watch.words(records)), answers, done, stop, records
    thread = threading.Thread(target=_run, args=given, name="sigdorf", daemon=True)
    try:
        thread.start()
        if records:
            watch.progress.listen(records.reads)
        done.wait()
    except BaseException:
        stop.write()
        # Whether it has begun isn't seen for a moment.
        if done.wait(None if thread.ident else MOMENT):
            thread.join()
        raise
    answer, fault = answers.pop()
    if fault is not None:
        raise fault
    return answer


def _run(call, arguments, answers, done, stop, records):
    """Makes a call. The pipes are among the arguments so that they stay open as long as the call."""
    try:
        answers.append((call(*arguments), None))
    except BaseException as fault:
        answers.append((None, fault))
    if records:
        records.end()
    done.set()
