"""The server of the page: from the command to its end, after which nothing of it is on the disk."""
import contextlib
import gc
import http.server
import ipaddress
import signal
import socket
import socketserver
import sys
import tempfile
import threading
import time

from ..faults import Fault, read_bytes, say
from ..reading import parted_from_sheet
from .fields import fields_of
from .guards import Guard
from .processes import PageSolver, Processes
from .requests import Handler
from .session import Session
from .streams import CHUNK, SECONDS_FOR_REST
from .words import password_of

# How long a plan may take where nobody says it; and how many requests are answered at a time, and as many more refused.
SECONDS, MOST_REQUESTS = "60", 32
# Python looks for cycles once so many things have been made: cells of a table make none, and there are millions of them.
LOOK_FOR_CYCLES = 1_000_000
# For so long the end of the page waits for a plan that was cut off.
SECONDS_FOR_END = 3
ENDING = (signal.SIGTERM, signal.SIGHUP)
BUSY = b"HTTP/1.0 503 Service Unavailable\r\nConnection: close\r\nContent-Type: text/plain\r\n\r\nthe page has too many requests at a time; try again in a second\n"


class Page:
    """What the sessions of a page share."""

    def __init__(self, words, parser, program):
        self.parser, self.fields, self.program = parser, fields_of(parser), program
        self.words, self.files, self.processes = words, files_said(words), Processes()

    def new_session(self):
        return Session(self.words, self.files, self)

    def solver_for(self, words):
        return PageSolver(self.processes, self.program, words.bids, words.second_checker, words.seconds or SECONDS)


class Server(socketserver.ThreadingMixIn, http.server.HTTPServer):
    """Answers some requests at a time, each in a thread that doesn't outlive the command."""

    daemon_threads = True
    request_queue_size = MOST_REQUESTS

    def __init__(self, family, address, guard):
        self.address_family, self.guard = family, guard
        self.places, self.refusals = (threading.BoundedSemaphore(MOST_REQUESTS) for _ in range(2))
        super().__init__(address, Handler)

    def server_bind(self):
        # The library would ask the network for the machine's name.
        socketserver.TCPServer.server_bind(self)

    def process_request(self, request, client_address):
        if self.places.acquire(blocking=False):
            super().process_request(request, client_address)
        elif self.refusals.acquire(blocking=False):
            threading.Thread(target=self.refuse, args=(request,), daemon=True).start()
        else:
            self.shutdown_request(request)

    def process_request_thread(self, request, client_address):
        try:
            super().process_request_thread(request, client_address)
        finally:
            self.places.release()

    def refuse(self, request):
        """Tells one request too many so, once it has come: what isn't read would take the answer away with it."""
        try:
            with contextlib.suppress(OSError):
                request.settimeout(SECONDS_FOR_REST)
                request.recv(CHUNK)
                request.sendall(BUSY)
        finally:
            self.shutdown_request(request)
            self.refusals.release()


def serve(words, parser, solver):
    """Serves the page until it is ended. The words are those of the command, with their parser; the solver is asked whether its program
    runs."""
    password = password_of(words.password_file)
    words.seconds = words.seconds or SECONDS
    parser.error = refuse_word
    page = Page(words, parser, solver.program)
    guard = Guard(password, page.new_session)
    solver.make_ready()
    gc.set_threshold(LOOK_FOR_CYCLES)
    for number in ENDING:
        signal.signal(number, end)
    with folder_for_files(), server_of(words, guard) as server:
        tell_address(words, guard, server)
        try:
            server.serve_forever()
        finally:
            end_work(page, guard)


def refuse_word(message):
    """What the parser says of a field of the page; it would end the command."""
    raise Fault(message)


def end(number, _):
    raise SystemExit(128 + number)


def files_said(words):
    """The files that the words name, as a page sees them: it sees no other ones of the disk."""
    files = {}
    for word in (words.file, words.need, words.capacity, words.apart, words.keep):
        if word is not None and not word.isdecimal():
            path, _ = parted_from_sheet(word)
            files[path] = read_bytes(path)
    return files


@contextlib.contextmanager
def folder_for_files():
    """A folder of its own for what the solver is given, which is gone at the end."""
    before = tempfile.tempdir
    with tempfile.TemporaryDirectory(prefix="auction-plan-", ignore_cleanup_errors=True) as folder:
        tempfile.tempdir = folder
        try:
            yield
        finally:
            tempfile.tempdir = before


def server_of(words, guard):
    port = int(words.port or 0)
    family, address, names = address_of(words.host, port)
    try:
        server = Server(family, address, guard)
    except OSError as error:
        raise Fault(f"--serve: {names[0]}{f', port {port}' if port else ''}: the page can't be put there: {error.strerror}; say another --port, or a --host that is this machine") from None
    guard.is_at(names, server.server_address[1])
    return server


def address_of(host, port):
    """Where the page listens, and by which names it is asked for."""
    if host is None:
        return socket.AF_INET, ("127.0.0.1", port), ["127.0.0.1", "localhost"]
    try:
        family, _, _, _, address = socket.getaddrinfo(host, port, type=socket.SOCK_STREAM)[0]
    except OSError as error:
        raise Fault(f"--host {host}: no such machine is found: {error.strerror}; name this one as others reach it") from None
    if ipaddress.ip_address(address[0].partition("%")[0]).is_unspecified:
        raise Fault(f"--host {host}: it stands for all addresses, and the page has to know by which one it is asked for; name this machine as others reach it")
    return family, address, list(dict.fromkeys([host, address[0]]))


def tell_address(words, guard, server):
    """The address on standard output, and what it is on standard error."""
    name, port = words.host or "127.0.0.1", server.server_address[1]
    who = "a browser of this machine" if words.host is None else "a browser of the office, where the password is asked for"
    say(f"open this address in {who}; Ctrl-C closes the page")
    token = "" if words.host else f"?token={guard.token}"
    print(f"http://{f'[{name}]' if ':' in name else name}:{port}/{token}", file=sys.stdout, flush=True)


def end_work(page, guard):
    """Ends what runs, and waits until those who work have taken their files away. It is ended itself by nothing but its time."""
    for number in (signal.SIGINT, *ENDING):
        signal.signal(number, signal.SIG_IGN)
    page.processes.end()
    until = time.monotonic() + SECONDS_FOR_END
    for session in list(guard.sessions.values()):
        session.work.acquire(timeout=max(until - time.monotonic(), 0))
