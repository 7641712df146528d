"""Who may see the page: whoever has its address with the token, or in an office who knows the password; and no other page of a browser."""
import hashlib
import hmac
import secrets
import threading
import time

from .refusals import Refusal

# So many browsers may have a session; the one that was longest without a request makes room.
MOST_SESSIONS = 8
SECONDS_PER_GUESS = 1.0
NO_TOKEN = "this page is for whoever has its whole address, with the token; open the one that plan has printed in the terminal"
NO_SESSION = "this browser isn't signed in any more; open the page anew"


def is_same(said, secret):
    """Whether two texts are the same, in a time that doesn't tell how far they are."""
    return hmac.compare_digest(*(hashlib.sha256(text.encode("utf-8", "surrogateescape")).digest() for text in (said, secret)))


def hosts_of(names, port):
    """How a browser names a server in `Host`: by each of its names."""
    hosts = {f"[{name}]" if ":" in name else name.lower() for name in names}
    return {f"{host}:{port}" for host in hosts} | (hosts if port == 80 else set())


class Guard:
    """Tells requests of its own page from those of others, and keeps the sessions of its browsers."""

    def __init__(self, password, make_session):
        self.token, self.password, self.make_session = secrets.token_urlsafe(32), password, make_session
        self.hosts, self.sessions = frozenset(), {}
        self.lock, self.guessing = threading.Lock(), threading.Lock()

    def is_at(self, names, port):
        self.hosts, self.cookie = hosts_of(names, port), f"plan_{port}"

    def look_at_host(self, hosts):
        """Another name would be that of another page which has led a browser here."""
        if len(hosts) != 1 or hosts[0].lower() not in self.hosts:
            raise Refusal(421, f"this page is at {' and '.join(sorted(self.hosts))}, and was asked for by another name; open it by that address")

    def look_at_origin(self, origin):
        """What changes something comes from the page itself."""
        if origin not in {f"http://{host}" for host in self.hosts}:
            raise Refusal(403, "this was sent by another page, or by no page; send it from the page itself")

    def session_of(self, cookies):
        """The session that a request tells by its cookie, or None."""
        named = [part.strip().partition("=") for part in (cookies or "").split(";")]
        told = [value for name, _, value in named if name == self.cookie]
        with self.lock:
            found = [session for key, session in self.sessions.items() for value in told if is_same(value, key)]
            if found:
                found[0].used = time.monotonic()
        return found[0] if found else None

    def is_token(self, said):
        return self.password is None and said is not None and is_same(said, self.token)

    def look_at_password(self, said):
        """One guess at a time is judged, and a wrong one takes a second."""
        if not self.guessing.acquire(blocking=False):
            raise Refusal(429, "another password is being judged; try again in a second")
        try:
            if self.password is None or not is_same(said, self.password):
                time.sleep(SECONDS_PER_GUESS)
                raise Refusal(403, "this isn't the password; whoever has started plan knows it")
        finally:
            self.guessing.release()

    def new_session(self):
        """The header that gives a browser a session."""
        key = secrets.token_urlsafe(32)
        with self.lock:
            idle = sorted((session.used, other) for other, session in self.sessions.items() if not session.work.locked())
            if len(self.sessions) >= MOST_SESSIONS:
                if not idle:
                    raise Refusal(503, f"{MOST_SESSIONS} plans are being made; try again later")
                del self.sessions[idle[0][1]]
            self.sessions[key] = self.make_session()
        return f"{self.cookie}={key}; HttpOnly; SameSite=Strict; Path=/"
