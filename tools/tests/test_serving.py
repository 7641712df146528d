"""plan --serve: who is answered, what is refused and with which sentence, and that nothing is left at the end; without a browser."""
import contextlib
import html
import io
import os
import signal
import socket
import stat
import sys
import threading
import time
import unittest
import zipfile

from calls import ROOT, ToolTest
from served import Served

CREW = ROOT / "examples/crew.csv"


def a_workbook():
    """What begins as a workbook."""
    content = io.BytesIO()
    with zipfile.ZipFile(content, "w") as archive:
        archive.writestr("xl/workbook.xml", "")
    return content.getvalue()


class ServedTest(ToolTest):
    """A test of a page. No plan is made of what is tried here, so that any program does."""

    def serve(self, *words, program="/bin/true"):
        self.page = Served(self.folder, *words, "--program", program)
        self.addCleanup(self.page.end)
        return self.page

    def slow_program(self, seconds):
        """A program that takes its time, and has no answer then."""
        program = self.write("slow", f"#!/bin/sh\n[ $1 = --version ] || exec sleep {seconds}\n")
        program.chmod(0o755)
        return program

    def wait_for(self, holds):
        until = time.monotonic() + 10
        while not holds():
            self.assertLess(time.monotonic(), until)
            time.sleep(0.02)

    def assert_refused(self, answer, status, *parts):
        """One sentence that says what to do, as JSON or on a page."""
        sentence = answer.told()["fault"] if answer.headers["Content-Type"] == "application/json" else html.unescape(answer.body.decode())
        self.assertEqual(answer.status, status, sentence)
        for part in parts:
            self.assertIn(part, sentence)
        self.assertIn("default-src 'none'; script-src 'self'", answer.headers["Content-Security-Policy"])


class Guards(ServedTest):
    def test_address(self):
        page = self.serve()
        self.assertRegex(page.address, r"^http://127\.0\.0\.1:[0-9]+/\?token=[\w-]{43}$")

    def test_token(self):
        page = self.serve()
        for path in ("/", "/?token=", "/?token=wrong", f"/?{page.query}x", "/?token=%00%ff"):
            self.assert_refused(page.ask(path), 403, "open the one that plan has printed in the terminal")
        answer = page.open()
        self.assertEqual((answer.status, answer.headers["Content-Type"]), (200, "text/html; charset=utf-8"))
        self.assertRegex(answer.headers["Set-Cookie"], r"^plan_[0-9]+=[\w-]{43}; HttpOnly; SameSite=Strict; Path=/$")
        self.assertEqual(page.ask("/").status, 200)

    def test_no_session(self):
        """Without the cookie nothing is read and nothing is done, whatever the token."""
        page = self.serve(CREW)
        for path in ("/view", "/fields", "/cells?row=0&column=0&rows=1&columns=1", "/find?name=A", "/picture.svg", "/plan.xlsx", "/plan.csv", f"/view?{page.query}"):
            self.assert_refused(page.ask(path), 403, "open the one that plan has printed")
            self.assert_refused(page.ask(path, Cookie=f"plan_{page.port}=wrong"), 403, "open the page anew")
        for path in ("/table?name=t.csv", "/options", "/plan"):
            self.assert_refused(page.ask(path, "POST", b"{}"), 403, "open the one that plan has printed")

    def test_sessions_are_apart(self):
        page = self.serve()
        page.open()
        page.take("mine.csv", "a,x,1\n")
        first = page.cookie
        page.open()
        self.assertNotEqual(page.cookie, first)
        self.assertEqual(page.ask("/view").told()["table"], None)
        page.cookie = first
        self.assertEqual(page.ask("/view").told()["file"], "mine.csv")

    def test_host(self):
        """Another name in Host is that of a page which has led a browser here."""
        page = self.serve()
        page.open()
        for host in ("evil.example", f"evil.example:{page.port}", "127.0.0.1", f"127.0.0.1:{page.port + 1}", "", f"0.0.0.0:{page.port}"):
            self.assert_refused(page.ask("/view", Host=host), 421, f"127.0.0.1:{page.port}", "open it by that address")
        with socket.create_connection((page.host, page.port)) as connection:
            connection.sendall(f"GET /view HTTP/1.0\r\nCookie: {page.cookie}\r\n\r\n".encode())
            self.assertTrue(connection.recv(100).startswith(b"HTTP/1.0 421 "))
        self.assertEqual(page.ask("/view", Host=f"LocalHost:{page.port}").status, 200)

    def test_origin(self):
        """What changes something comes from the page itself."""
        page = self.serve()
        page.open()
        for origin in (None, "null", "http://evil.example", f"127.0.0.1:{page.port}", f"https://127.0.0.1:{page.port}", f"http://127.0.0.1:{page.port + 1}"):
            for path in ("/table?name=t.csv", "/options", "/plan", "/sign-in"):
                self.assert_refused(page.ask(path, "POST", b"{}", Origin=origin), 403, "send it from the page itself")
        self.assertEqual(page.ask("/view").told()["table"], None)

    def test_methods(self):
        page = self.serve()
        page.open()
        for method in ("PUT", "DELETE", "OPTIONS", "HEAD", "TRACE", "CONNECT"):
            self.assertEqual(page.ask("/plan", method).status, 405)
        answer = page.ask("/plan")
        self.assert_refused(answer, 405, "takes POST alone")
        self.assertEqual(answer.headers["Allow"], "POST")
        self.assert_refused(page.ask("/view", "POST", b""), 405, "takes GET alone")

    def test_paths(self):
        """There is nothing but the page: no path leads to a file."""
        page = self.serve()
        page.open()
        for path in ("/../../../etc/passwd", "/assets/../server.py", "/assets/%2e%2e/server.py", "/assets//etc/passwd", "/assets/", "/assets/page.html", "/etc/passwd", "//etc/passwd", "/assets/page.css%00", "*"):
            self.assert_refused(page.ask(path), 404, "open the page itself")
        self.assertEqual(page.ask("/assets/page.css").headers["Content-Type"], "text/css; charset=utf-8")

    def test_headers(self):
        answer = self.serve().open()
        for name, value in [("X-Content-Type-Options", "nosniff"), ("Referrer-Policy", "no-referrer"), ("Cache-Control", "no-store")]:
            self.assertEqual(answer.headers[name], value)
        self.assertIn("frame-ancestors 'none'", answer.headers["Content-Security-Policy"])
        self.assertNotIn(b"http:", answer.body.replace(b"http://www.w3.org", b""))


class Limits(ServedTest):
    def test_sizes(self):
        page = self.serve()
        page.open()
        self.assert_refused(page.ask("/table?name=t.csv", "POST", b"", Content_Length=str(64 * 2**20 + 1)), 413, "more than the 64 MB", "leave out")
        self.assert_refused(page.ask("/plan", "POST", b"", Content_Length=str(2**20 + 1)), 413, "more than the 1 MB")
        for length in ("-1", "many", "1e3", "9" * 5_000):
            self.assertIn(page.ask("/plan", "POST", b"", Content_Length=length).status, (411, 413), length)
        self.assert_refused(page.ask("/plan", "POST", None, Transfer_Encoding="chunked"), 411, "the length")
        self.assert_refused(page.ask("/view", X="x" * 70_000), 431)
        self.assertIn(page.ask(f"/{'x' * 70_000}").status, (414, 431))

    def test_workbook_that_is_far_greater_unpacked(self):
        content = io.BytesIO()
        with zipfile.ZipFile(content, "w", zipfile.ZIP_DEFLATED) as archive, archive.open("xl/workbook.xml", "w") as member:
            for _ in range(600):
                member.write(bytes(2**20))
        page = self.serve()
        page.open()
        self.assertEqual(page.take("t.csv", "a,x,1\n").status, 200)
        self.assert_refused(page.take("bomb.xlsx", content.getvalue()), 413, "600 MB once it is unpacked", "save the table as CSV")
        self.assertEqual(page.ask("/view").told()["file"], "t.csv")

    def test_slow_client(self):
        """A request that comes byte by byte ends after its time, and others are answered meanwhile."""
        page = self.serve()
        page.open()
        with socket.create_connection((page.host, page.port)) as slow:
            slow.settimeout(30)
            begin, text = time.monotonic(), b""
            slow.sendall(b"GET /view HTTP/1.1\r\n")
            while not text and time.monotonic() - begin < 25:
                self.assertEqual(page.ask("/view").status, 200)
                try:
                    slow.sendall(b"X")
                    slow.settimeout(1)
                    text = slow.recv(65_536)
                except TimeoutError:
                    continue
            self.assertIn(b" 408 ", text.partition(b"\r\n")[0])
        self.assertLess(time.monotonic() - begin, 15)

    def test_many_connections(self):
        """Those that send nothing take no more than their number and their time."""
        page = self.serve()
        page.open()
        idle = [socket.create_connection((page.host, page.port)) for _ in range(32)]
        try:
            time.sleep(0.5)
            answer = page.ask("/view")
            self.assertEqual((answer.status, answer.body), (503, b"the page has too many requests at a time; try again in a second\n"))
        finally:
            for connection in idle:
                connection.close()
        self.wait_for(lambda: page.ask("/view").status == 200)

    def test_less_than_was_said(self):
        page = self.serve()
        page.open()
        with socket.create_connection((page.host, page.port)) as cut:
            head = f"POST /plan HTTP/1.1\r\nHost: 127.0.0.1:{page.port}\r\nOrigin: {page.origin}\r\nCookie: {page.cookie}\r\nContent-Length: 10\r\n\r\n"
            cut.sendall(head.encode() + b"{")
            cut.shutdown(socket.SHUT_WR)
            self.assertIn(b"less came than was said", b"".join(iter(lambda: cut.recv(65_536), b"")))

    def test_what_is_no_request(self):
        page = self.serve()
        page.open()
        for text in (b"\x16\x03\x01\x02\x00\x01\x00\r\n\r\n", b"GET\r\n\r\n", b"GET / HTTP/9.9\r\n\r\n", b"\r\n\r\n", b"GET /view HTTP/1.1\r\nno header\r\n\r\n", f"GET http://[ HTTP/1.1\r\nHost: 127.0.0.1:{page.port}\r\n\r\n".encode()):
            with socket.create_connection((page.host, page.port)) as connection:
                connection.sendall(text)
                connection.shutdown(socket.SHUT_WR)
                self.assertNotIn(b" 200 ", b"".join(iter(lambda: connection.recv(65_536), b"")))
        for body in (b"", b"[", b"[" * 100_000, b"\xff", b"[]", b'{"fix": 1}', b'{"fix": [[0, "x"]]}', b'{"costs": [[0, 0, 1]]}', b'{"costs": [[0, 0]]}', b'"x"'):
            page.take("t.csv", "a,x,1\n")
            answer = page.ask("/plan", "POST", body)
            self.assert_refused(answer, 400)
        for path in ("/?" + "a=1&" * 20, "/find?" + "a=1&" * 20):
            self.assert_refused(page.ask(path, Cookie=None if path.startswith("/?") else page.cookie), 400, "more than 10 fields")
        for path in ("/cells", "/cells?row=-1&column=0&rows=1&columns=1", "/cells?row=1e9&column=0&rows=1&columns=1"):
            self.assert_refused(page.ask(path), 400, "have to be numbers")
        self.assertEqual(page.ask("/cells?row=999999&column=0&rows=9&columns=9").told()["cells"], [])
        self.assertEqual(page.end()[1].count("Traceback"), 0)


    def test_two_plans_at_once(self):
        """A session has one plan at a time, and another session has its own."""
        page = self.serve(program=self.slow_program(3))
        page.open()
        page.take("t.csv", "a,x,1\n")
        planning = threading.Thread(target=page.plan, daemon=True)
        planning.start()
        self.wait_for(lambda: any(path.is_file() for path in page.files.rglob("*.arcs")))
        for answer in (page.plan(), page.take("other.csv", "b,y,1\n"), page.send("/options", {})):
            self.assert_refused(answer, 409, "a plan of this table is being made, and there is one at a time; wait for it")
        self.assertEqual(page.ask("/cells?row=0&column=0&rows=1&columns=1").told()["cells"], [["1"]], "it is shown all the same")
        page.open()
        self.assertEqual(page.take("other.csv", "b,y,1\n").status, 200)
        planning.join(10)

    def test_many_sessions(self):
        """The one that was longest without a request makes room."""
        page = self.serve()
        cookies = []
        for _ in range(9):
            page.open()
            cookies.append(page.cookie)
            if len(cookies) > 1:
                self.assertEqual(page.ask("/view", Cookie=cookies[0]).status, 200)
        self.assertEqual([page.ask("/view", Cookie=cookie).status for cookie in cookies], [200, 403, *[200] * 7])

    def test_before_there_is_a_plan(self):
        page = self.serve()
        page.open()
        for path in ("/picture.svg", "/plan.csv", "/plan.html"):
            self.assert_refused(page.ask(path), 409, "there is no plan yet; plan first")
        for path in ("/cells?row=0&column=0&rows=1&columns=1", "/find?name=x"):
            self.assert_refused(page.ask(path), 409, "there is no table yet; drop one")
        self.assert_refused(page.plan(), 409, "there is no table yet; drop one")

    def test_packages_that_are_missing(self):
        """Without openpyxl there is a sentence in place of a workbook."""
        page = self.page = Served(self.folder, "--program", "/bin/true", plan=[sys.executable, "-S", ROOT / "plan"])
        self.addCleanup(page.end)
        page.open()
        self.assert_refused(page.ask("/plan.xlsx"), 501, "python3-openpyxl of Debian", "or take the CSV")
        self.assert_refused(page.take("book.xlsx", a_workbook()), 422, "book.xlsx: to read .xlsx Python needs openpyxl")


class Words(ServedTest):
    def test_of_the_command(self):
        self.write("secret", "enough letters\n").chmod(0o600)
        for words, *parts in [
            ([], "a table is wanted"),
            (["crew.csv", "--host", "box"], "--host: it is for a page in a browser; say --serve too"),
            (["--serve", "--host", "127.0.0.1"], "it has to ask for a password; say --password-file too"),
            (["--serve", "--password-file", "secret"], "leave it out"),
            (["--serve", "--host", "0.0.0.0", "--password-file", "secret"], "name this machine as others reach it"),
            (["--serve", "--port", "70000"], "--port 70000: a whole number from 1 to 65,535 is wanted"),
            (["--serve", "-o", "plan.csv"], "--output: it doesn't go with --serve"),
            (["--serve", "--second"], "--second: it doesn't go with --serve"),
            (["--serve", "-"], "the table has to be a file"),
            (["--serve", "nosuch.csv"], "nosuch.csv: there is no such file"),
        ]:
            with self.subTest(words):
                status, output, said = self.call("plan", *words, "--program", "/bin/true")
                self.assertEqual((status, output), (2, ""), said)
                for part in parts:
                    self.assertIn(part, said)

    def test_password_files(self):
        self.write("open", "enough letters\n").chmod(0o644)
        self.write("short", "few\n").chmod(0o600)
        self.write("empty", "").chmod(0o600)
        for name, part in [("open", "chmod 600 open"), ("short", "at least 8 letters"), ("empty", "at least 8 letters"), ("nosuch", "there is no such file")]:
            answer = self.call("plan", "--serve", "--host", "127.0.0.1", "--password-file", name, "--program", "/bin/true")
            self.assert_fault(answer, part)

    def test_port_that_is_taken(self):
        page = self.serve()
        answer = self.call("plan", "--serve", "--port", str(page.port), "--program", "/bin/true")
        self.assert_fault(answer, f"port {page.port}", "say another --port")


class Office(ServedTest):
    def test_password(self):
        """By another address of this machine, whoever knows the password gets a session, and a wrong one takes its time."""
        secret = self.write("secret", "enough letters\nnot this line\n")
        secret.chmod(stat.S_IRUSR | stat.S_IWUSR)
        page = self.serve("--host", "127.0.0.2", "--password-file", "secret")
        self.assertEqual((page.host, page.query), ("127.0.0.2", ""))
        self.assert_refused(page.ask("/"), 403, 'type="password"')
        first = threading.Thread(target=page.ask, args=("/sign-in", "POST", b"password=wrong"))
        first.start()
        time.sleep(0.3)
        self.assert_refused(page.ask("/sign-in", "POST", b"password=enough+letters"), 429, "try again in a second")
        first.join()
        self.assert_refused(page.ask("/?token=x"), 403, 'type="password"')
        self.assert_refused(page.ask("/view", Host=f"127.0.0.1:{page.port}"), 421)
        begin = time.monotonic()
        for wrong in (b"password=wrong+letters", b"password=", b"", b"password=not+this+line"):
            self.assert_refused(page.ask("/sign-in", "POST", wrong), 403, "this isn't the password")
        self.assertGreater(time.monotonic() - begin, 4)
        answer = page.ask("/sign-in", "POST", b"password=enough+letters")
        self.assertEqual((answer.status, answer.headers["Location"]), (303, "/"))
        page.cookie = answer.headers["Set-Cookie"].partition(";")[0]
        self.assertEqual(page.ask("/view").status, 200)
        with socket.socket() as closed, self.assertRaises(ConnectionRefusedError):
            closed.connect(("127.0.0.1", page.port))


class Ends(ServedTest):
    def left(self):
        return sorted(path.name for path in self.page.files.iterdir())

    def test_by_signals(self):
        """Nothing is left on the disk, nor runs on, also where a plan is cut off."""
        for number, status in ((signal.SIGINT, 130), (signal.SIGTERM, 143), (signal.SIGHUP, 129)):
            with self.subTest(number):
                page = self.serve(program=self.slow_program(60))
                page.open()
                page.take("t.csv", "a,x,1\nb,y,1\n")
                planning = self.in_background(page.plan)
                self.wait_for(lambda: any(path.is_file() for path in page.files.rglob("*.arcs")))
                self.assertEqual(page.end(number)[0], status)
                planning.join(10)
                self.assertEqual(self.left(), [])
                self.assertFalse(self.runs(str(page.files)), "the solver has ended")

    def in_background(self, work):
        def ended():
            with contextlib.suppress(OSError):
                work()
        thread = threading.Thread(target=ended, daemon=True)
        thread.start()
        return thread

    def runs(self, text):
        """Whether a process has a text among its words."""
        for name in filter(str.isdecimal, os.listdir("/proc")):
            try:
                with open(f"/proc/{name}/cmdline", "rb") as words:
                    if text.encode() in words.read():
                        return True
            except OSError:
                continue
        return False

    def test_idle(self):
        page = self.serve()
        page.open()
        page.take("t.csv", "a,x,1\n")
        status, said = page.end()
        self.assertEqual((status, self.left()), (143, []))
        self.assertEqual(said, "plan: open this address in a browser of this machine; Ctrl-C closes the page\n")


if __name__ == "__main__":
    unittest.main()
