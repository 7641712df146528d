"""What a browser sends, read within limits of size and time: whoever sends too much or too slowly is refused, and no request waits for ever."""
import io
import time

from .refusals import Refusal

# A request without its body: so many bytes within so many seconds. A body has a second more for so many bytes.
MOST_HEAD, SECONDS_FOR_HEAD, BYTES_PER_SECOND = 64 * 1024, 10, 200_000
# An answer has to be taken within so many seconds.
SECONDS_FOR_ANSWER = 60
# What is still sent by whoever was refused is read for so long, so that the refusal isn't lost.
SECONDS_FOR_REST, CHUNK = 2, 65_536


class Received(io.RawIOBase):
    """What comes by a connection, of which so many bytes more may be read until a time."""

    def __init__(self, connection):
        self.connection, self.left, self.until = connection, MOST_HEAD, time.monotonic() + SECONDS_FOR_HEAD

    def readable(self):
        return True

    def allow(self, count):
        """A body of so many bytes is wanted."""
        self.left, self.until = count, time.monotonic() + SECONDS_FOR_HEAD + count / BYTES_PER_SECOND

    def readinto(self, buffer):
        seconds = self.until - time.monotonic()
        if self.left <= 0:
            raise Refusal(431, f"the head of a request may have {MOST_HEAD // 1024} kB; send less in it")
        if seconds > 0:
            self.connection.settimeout(seconds)
            try:
                count = self.connection.recv_into(memoryview(buffer)[: self.left])
                self.left -= count
                return count
            except TimeoutError:
                pass
        if self.left == MOST_HEAD:
            # A connection by which nothing came: browsers open some to have them at hand.
            return 0
        raise Refusal(408, "the request came too slowly; send it anew")

    def drop_rest(self):
        """Reads what is still sent and drops it."""
        until = time.monotonic() + SECONDS_FOR_REST
        while (seconds := until - time.monotonic()) > 0:
            self.connection.settimeout(seconds)
            try:
                if not self.connection.recv(CHUNK):
                    return
            except OSError:
                return
