"""A page that `plan --serve` serves, as a command of its own, and requests to it without a browser."""
import contextlib
import http.client
import json
import os
import signal
import subprocess
import sys
import urllib.parse

from calls import ROOT


class Answer:
    """The status, the headers and the body of an answer."""

    def __init__(self, answer):
        self.status, self.headers, self.body = answer.status, answer.headers, answer.read()

    def told(self):
        return json.loads(self.body)


class Served:
    """The command, which ends with the test; its temporary files have a folder of their own."""

    def __init__(self, folder, *words, plan=(sys.executable, ROOT / "plan")):
        self.files = folder / "temporary"
        self.files.mkdir(exist_ok=True)
        command = [*map(str, plan), "--serve", *map(str, words)]
        self.running = subprocess.Popen(command, cwd=folder, env=os.environ | {"TMPDIR": str(self.files)}, stdin=subprocess.DEVNULL, stdout=subprocess.PIPE, stderr=subprocess.PIPE, text=True)
        self.address = self.running.stdout.readline().strip()
        url = urllib.parse.urlsplit(self.address)
        self.host, self.port, self.query, self.cookie = url.hostname, url.port, url.query, None

    @property
    def origin(self):
        return f"http://{self.host}:{self.port}"

    def ask(self, path, method="GET", body=None, **headers):
        """An answer; headers are named with underscores, and None leaves one out."""
        connection = http.client.HTTPConnection(self.host, self.port, timeout=60)
        known = {"Cookie": self.cookie, "Origin": self.origin if method == "POST" else None}
        known |= {name.replace("_", "-"): value for name, value in headers.items()}
        known = {name: value for name, value in known.items() if value is not None}
        with contextlib.closing(connection):
            connection.putrequest(method, path, skip_host="Host" in known, skip_accept_encoding=True)
            if body is not None:
                known.setdefault("Content-Length", str(len(body)))
            for name, value in known.items():
                connection.putheader(name, value)
            connection.endheaders()
            if body:
                connection.send(body)
            return Answer(connection.getresponse())

    def open(self):
        """Opens the page by its whole address, and keeps the session."""
        answer = self.ask(f"/?{self.query}", Cookie=None)
        self.cookie = answer.headers["Set-Cookie"].partition(";")[0]
        return answer

    def take(self, name, text):
        content = text if isinstance(text, bytes) else text.encode()
        return self.ask(f"/table?{urllib.parse.urlencode({'name': name})}", "POST", content)

    def send(self, path, told):
        return self.ask(path, "POST", json.dumps(told).encode())

    def plan(self, **edits):
        return self.send("/plan", edits)

    def end(self, number=signal.SIGTERM):
        """The status of the command after a signal, and what it has said."""
        if self.running.poll() is None:
            self.running.send_signal(number)
        _, said = self.running.communicate(timeout=30)
        return self.running.returncode, said
