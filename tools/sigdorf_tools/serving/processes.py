"""The solver of a page: what it starts ends with the page."""
import subprocess
import threading

from ..faults import Fault
from ..solving import Solver


class Processes:
    """What runs for a page. Once it is over nothing is started any more."""

    def __init__(self):
        self.lock, self.running, self.is_over = threading.Lock(), [], False

    def start(self, begin):
        with self.lock:
            if self.is_over:
                raise Fault("the page is closed; start plan anew")
            self.running = [process for process in self.running if process.returncode is None]
            process = begin()
            self.running.append(process)
        return process

    def end(self):
        with self.lock:
            self.is_over = True
            for process in self.running:
                if process.poll() is None:
                    process.kill()


class PageSolver(Solver):
    """The solver with a limit of time, which is ready."""

    def __init__(self, processes, program, bids, has_second, seconds):
        super().__init__(program, bids, None, has_second, seconds)
        self.processes, self.is_ready = processes, True

    def started(self, words, pipe=subprocess.PIPE, said=subprocess.PIPE):
        begin = super().started
        return self.processes.start(lambda: begin(words, pipe, said))
