"""Requests of browsers: who sends them is looked at first, then what they ask is done in the session of that browser."""
import html
import http.server
import importlib.util
import io
import json
import socket
import sys
import traceback
import urllib.parse

from ..faults import Fault
from .assets import ASSETS
from .guards import NO_SESSION, NO_TOKEN
from .refusals import Refusal
from .streams import SECONDS_FOR_ANSWER, Received

MOST_UPLOAD, MOST_BODY, MOST_FIELDS = 64 * 2**20, 2**20, 10
HEADERS = {
    "Content-Security-Policy": "default-src 'none'; script-src 'self'; style-src 'self'; img-src 'self'; connect-src 'self'; form-action 'self'; base-uri 'none'; frame-ancestors 'none'",
    "Cross-Origin-Opener-Policy": "same-origin",
    "Cross-Origin-Resource-Policy": "same-origin",
    "X-Content-Type-Options": "nosniff",
    "Referrer-Policy": "no-referrer",
    "Cache-Control": "no-store",
    "Connection": "close",
}
HTML, JSON, SVG = "text/html; charset=utf-8", "application/json", "image/svg+xml; charset=utf-8"
DOWNLOADS = {
    "/plan.xlsx": "application/vnd.openxmlformats-officedocument.spreadsheetml.sheet",
    "/plan.csv": "text/csv; charset=utf-8",
    "/plan.html": HTML,
}
# By path what may be asked, and which function answers it.
ROUTES = {
    "/": {"GET": "page"},
    "/sign-in": {"POST": "sign_in"},
    "/fields": {"GET": "fields"},
    "/view": {"GET": "view"},
    "/cells": {"GET": "cells"},
    "/find": {"GET": "find"},
    "/table": {"POST": "table"},
    "/options": {"POST": "options"},
    "/plan": {"POST": "plan"},
    "/picture.svg": {"GET": "picture"},
    **{path: {"GET": "download"} for path in DOWNLOADS},
    **{f"/assets/{name}": {"GET": "asset"} for name in ASSETS if not name.endswith(".html")},
}


class Handler(http.server.BaseHTTPRequestHandler):
    """One request of a connection, which ends with its answer."""

    # Until a request tells it.
    request_version = "HTTP/1.0"

    def setup(self):
        super().setup()
        self.received = Received(self.connection)
        self.rfile = io.BufferedReader(self.received)

    def handle(self):
        self.is_answered = False
        try:
            self.handle_one_request()
        except Refusal as refusal:
            self.refuse(refusal)
        except ConnectionError:
            # Whoever asked has gone.
            return
        if self.is_answered:
            self.wfile.flush()
            self.end_connection()

    def end_connection(self):
        try:
            self.connection.shutdown(socket.SHUT_WR)
        except OSError:
            return
        self.received.drop_rest()

    def send_error(self, code, message=None, explain=None):
        """What the library has to say of a request, in a sentence like any other."""
        status = 405 if code == 501 else int(code)
        raise Refusal(status, f"this is no request that a browser sends to this page ({message or status}); open the page anew")

    def log_message(self, *_):
        """Nothing is logged: addresses have the token in them."""

    def do_GET(self):
        self.answer_by("GET")

    def do_POST(self):
        self.answer_by("POST")

    def answer_by(self, method):
        try:
            self.guard.look_at_host(self.headers.get_all("Host", []))
            self.url = self.url_told()
            routes = ROUTES.get(self.url.path)
            if routes is None:
                raise Refusal(404, "there is nothing at this address; open the page itself")
            if method not in routes:
                raise Refusal(405, f"this address takes {' and '.join(routes)} alone; use the page", Allow=", ".join(routes))
            if method == "POST":
                self.guard.look_at_origin(self.headers.get("Origin"))
            getattr(self, routes[method])()
        except (Refusal, ConnectionError):
            raise
        except Fault as fault:
            raise Refusal(422, str(fault)) from None
        except MemoryError:
            raise Refusal(503, "there is too little memory for this problem; take a smaller table") from None
        except OSError as error:
            raise Refusal(507, f"{error.filename or 'the disk'}: it can't be written: {error.strerror}; make room there") from None
        except Exception as error:
            traceback.print_exc(file=sys.stderr)
            raise Refusal(500, f"plan is at fault here ({type(error).__name__}); what it was is in the terminal, and the page can go on") from None

    def url_told(self):
        try:
            return urllib.parse.urlsplit(self.path)
        except ValueError:
            raise Refusal(400, "the address can't be read; open the page anew") from None

    @property
    def guard(self):
        return self.server.guard

    def refuse(self, refusal):
        """A sentence: as JSON for the page's own requests, or as a page of its own."""
        if getattr(self, "url", None) is not None and self.url.path not in ("/", "/sign-in") and "text/html" not in (self.headers.get("Accept") or ""):
            self.send(json.dumps({"fault": refusal.sentence}).encode(), JSON, refusal.status, **refusal.headers)
        else:
            self.send_sentence(refusal.sentence, refusal.status, **refusal.headers)

    def send_sentence(self, sentence, status, **headers):
        form = self.server.guard.password is not None and status in (403, 429)
        page = ASSETS["sign-in.html" if form else "refused.html"].decode()
        self.send(page.replace("@SENTENCE@", html.escape(sentence)).encode(), HTML, status, **headers)

    def send(self, content, kind, status=200, **headers):
        self.is_answered = True
        self.connection.settimeout(SECONDS_FOR_ANSWER)
        try:
            self.send_response_only(status)
            for name, value in (HEADERS | {"Content-Type": kind, "Content-Length": str(len(content))} | headers).items():
                self.send_header(name.replace("_", "-"), value)
            self.end_headers()
            self.wfile.write(content)
        except OSError:
            self.is_answered = False

    def send_json(self, told):
        self.send(json.dumps(told).encode(), JSON)

    def body(self, most, way_out):
        """The body of a request, which has at most so many bytes; a sentence tells what to do where it has more."""
        length = self.headers.get("Content-Length") or ""
        if self.headers.get("Transfer-Encoding") or not length.isdecimal():
            raise Refusal(411, "the length of what is sent has to be said first; send it from the page")
        if int(length[:20]) > most:
            raise Refusal(413, f"this is more than the {most // 2**20} MB that the page takes; {way_out}")
        self.received.allow(int(length))
        content = self.rfile.read(int(length))
        if len(content) < int(length):
            raise Refusal(400, "less came than was said; send it anew")
        return content

    def told(self):
        try:
            return json.loads(self.body(MOST_BODY, "plan before more is changed"))
        except (ValueError, RecursionError):
            raise Refusal(400, "what was sent is no JSON; load the page anew") from None

    def query(self):
        return fields_told(self.url.query)

    def session(self):
        session = self.guard.session_of(self.headers.get("Cookie"))
        if session is None:
            raise Refusal(403, NO_SESSION if self.headers.get("Cookie") else NO_TOKEN)
        return session

    def page(self):
        """The page, for whoever has a session, or gets one by the token."""
        if self.guard.session_of(self.headers.get("Cookie")):
            self.send(ASSETS["page.html"], HTML)
        elif self.guard.is_token(self.query().get("token")):
            self.send(ASSETS["page.html"], HTML, Set_Cookie=self.guard.new_session())
        elif self.guard.password is not None:
            self.send_sentence("", 403)
        else:
            raise Refusal(403, NO_TOKEN)

    def sign_in(self):
        told = fields_told(self.body(MOST_BODY, "a password is shorter").decode("utf-8", "replace"))
        self.guard.look_at_password(told.get("password", ""))
        self.send(b"", HTML, 303, Location="/", Set_Cookie=self.guard.new_session())

    def asset(self):
        name = self.url.path.removeprefix("/assets/")
        kinds = {"css": "text/css; charset=utf-8", "js": "text/javascript; charset=utf-8", "svg": SVG}
        self.send(ASSETS[name], kinds[name.rpartition(".")[2]])

    def fields(self):
        self.send_json([field._asdict() for field in self.session().page.fields])

    def view(self):
        self.send_json(self.session().view())

    def cells(self):
        told = self.query()
        numbers = [told.get(name, "") for name in ("row", "column", "rows", "columns")]
        if not all(number.isdecimal() and len(number) < 7 for number in numbers):
            raise Refusal(400, "row, column, rows and columns have to be numbers; load the page anew")
        row, column, rows, columns = map(int, numbers)
        self.send_json(self.session().window((row, column), (rows, columns)))

    def find(self):
        self.send_json(self.session().find(self.query().get("name", "")))

    def table(self):
        way_out = "leave out what is no part of the table, or call plan with the file"
        self.send_json(self.session().take(self.query().get("name", ""), lambda: self.body(MOST_UPLOAD, way_out)))

    def options(self):
        self.send_json(self.session().set_options(self.told()))

    def plan(self):
        self.send_json(self.session().plan(self.told()))

    def picture(self):
        self.send(self.session().picture_of_plan().encode(), SVG)

    def download(self):
        session, name = self.session(), self.url.path.removeprefix("/")
        if name.endswith(".xlsx") and importlib.util.find_spec("openpyxl") is None:
            raise Refusal(501, "to write a workbook Python needs openpyxl (python3-openpyxl of Debian, `pip install openpyxl` elsewhere); install it, or take the CSV")
        self.send(session.download(name), DOWNLOADS[self.url.path], Content_Disposition=f'attachment; filename="{name}"')


def fields_told(text):
    """What a query, or a form, tells by names."""
    try:
        return dict(urllib.parse.parse_qsl(text, max_num_fields=MOST_FIELDS))
    except ValueError:
        raise Refusal(400, f"more than {MOST_FIELDS} fields; open the page anew") from None
