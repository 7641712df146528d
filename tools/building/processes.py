"""One build at a time in a clone, and an end of all that a build has started, however it ends itself."""
import contextlib
import fcntl
import os
import signal
import subprocess

from .crates import ROOT

LOCK = ROOT / "out" / "lock"
SIGNALS = (signal.SIGINT, signal.SIGTERM, signal.SIGHUP)


class Ended(BaseException):
    """The build was told to end, by this signal."""

    def __init__(self, number):
        super().__init__(number)
        self.status = 128 + number


def heed_signals():
    """Lets each signal that ends a process end the build in order. A second one while it does changes nothing."""

    def end(number, _):
        for each in SIGNALS:
            signal.signal(each, signal.SIG_IGN)
        raise Ended(number)

    for each in SIGNALS:
        signal.signal(each, end)


def no_longer_heed_signals():
    """Gives the signals back to what runs after the build in this process."""
    for each in SIGNALS:
        signal.signal(each, signal.SIG_DFL)


@contextlib.contextmanager
def only_build(say):
    """Holds the lock of this clone, and waits for it where another build has it. Gives its file."""
    LOCK.parent.mkdir(exist_ok=True)
    with open(LOCK, "a+", encoding="ascii") as file:
        try:
            fcntl.flock(file, fcntl.LOCK_EX | fcntl.LOCK_NB)
        except BlockingIOError:
            file.seek(0)
            say(f"another build is at work in this clone (process {file.read().strip() or 'unknown'}); this one waits for its end")
            fcntl.flock(file, fcntl.LOCK_EX)
        file.truncate(0)
        file.write(f"{os.getpid()}\n")
        file.flush()
        yield file


class Group:
    """The processes that a build starts: a group which ends with it, also where it is killed.

    A shell reads from a pipe that only the build holds. Once that is closed it ends the whole group; `rt` then sees to its own provers. Each
    process keeps the build's lock open, so that the next build begins after the last of them.
    """

    def __init__(self, lock):
        end, self.held = os.pipe()
        self.lock = lock.fileno()
        how = {"stdin": end, "stdout": subprocess.DEVNULL, "stderr": subprocess.DEVNULL}
        self.guard = subprocess.Popen(["sh", "-c", "read _; kill -9 0"], process_group=0, pass_fds=[self.lock], **how)
        os.close(end)

    def run(self, words, folder, log):
        """Whether a command ends well in this folder; what it says is added to the log."""
        with open(log, "ab") as file:
            how = {"stdin": subprocess.DEVNULL, "stdout": file, "stderr": file, "pass_fds": [self.lock]}
            return subprocess.run(words, cwd=folder, process_group=self.guard.pid, **how).returncode == 0

    def end(self):
        os.close(self.held)
        self.guard.wait()
