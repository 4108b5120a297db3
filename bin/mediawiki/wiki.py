"""A wiki that is asked over a few connections, which are kept while there is something to ask."""
import contextlib
import json
import queue
import socket
import threading
import time
import urllib.parse

from mediawiki.errors import ApiError, WikiError
from serving import LONGEST_REPLY

# How long is waited for the wiki, and how long a connection is kept that asks nothing: it holds a worker there.
SECONDS, KEPT_SECONDS = 75, 5
# How many requests are sent ahead of their replies, and how many bytes of them.
AHEAD, AHEAD_BYTES = 32, 16384
# What a request has at the most in its address; a longer one is posted.
LONGEST_TARGET = 2048
POSTED = {"edit", "delete"}


class Cut(Exception):
    """A connection that ended before the reply."""


class Link:
    """One connection to the wiki."""

    def __init__(self, address):
        self.socket = socket.create_connection(address, timeout=SECONDS)
        self.socket.setsockopt(socket.IPPROTO_TCP, socket.TCP_NODELAY, 1)
        self.file = self.socket.makefile("rb", 1 << 16)
        self.host = f"{address[0]}:{address[1]}".encode()
        self.last = time.monotonic()

    def written(self, parameters):
        """The bytes of a request."""
        form = urllib.parse.urlencode(parameters).encode()
        if parameters["action"] not in POSTED and len(form) <= LONGEST_TARGET:
            return b"GET /api.php?%b HTTP/1.1\r\nHost: %b\r\n\r\n" % (form, self.host)
        return b"POST /api.php HTTP/1.1\r\nHost: %b\r\nContent-Type: application/x-www-form-urlencoded\r\nContent-Length: %d\r\n\r\n%b" % (self.host, len(form), form)

    def send(self, data):
        try:
            self.socket.sendall(data)
        except TimeoutError:
            raise
        except OSError:
            raise Cut from None

    def reply(self):
        """The next reply, an object."""
        try:
            status = self.file.readline(1000)
            length = 0
            while (line := self.file.readline(1000)) not in (b"\r\n", b""):
                name, _, value = line.partition(b":")
                if name.lower() == b"content-length":
                    length = int(value)
            if length > LONGEST_REPLY:
                raise Cut
            body = self.file.read(length)
        except TimeoutError:
            raise
        except (OSError, ValueError):
            raise Cut from None
        if not status or len(body) < length or line == b"":
            raise Cut
        if status.split()[1:2] != [b"200"]:
            raise ApiError("internal_api_error_Wiki", f"The wiki answered with the status {status.decode('latin-1').strip()}.")
        self.last = time.monotonic()
        return json.loads(body)

    def is_still(self):
        """Whether nothing came: a connection that the wiki has ended can be read from."""
        self.socket.setblocking(False)
        try:
            return self.socket.recv(1, socket.MSG_PEEK) is None
        except BlockingIOError:
            return True
        except OSError:
            return False
        finally:
            self.socket.settimeout(SECONDS)

    def close(self):
        with contextlib.suppress(OSError):
            self.file.close()
            self.socket.close()


class Wiki:
    """Hands out its connections to whoever asks, one at a time."""

    def __init__(self, address, connections):
        self.address = address
        self.links = queue.LifoQueue()
        for _ in range(connections):
            self.links.put(None)
        # How many connections were made so far: while none is made, the wiki is the same process.
        self.made = 0
        # The last point that the wiki has told, so that nobody reads what is older.
        self.point, self.lock = 0, threading.Lock()
        threading.Thread(target=self.drop_idle, daemon=True).start()

    def drop_idle(self):
        """Ends connections that ask nothing."""
        while True:
            time.sleep(1)
            held = []
            with contextlib.suppress(queue.Empty):
                while True:
                    held.append(self.links.get_nowait())
            for it in reversed(held):
                if it and time.monotonic() - it.last > KEPT_SECONDS:
                    it.close()
                    it = None
                self.links.put(it)

    @contextlib.contextmanager
    def link(self):
        """A connection that nobody else has."""
        it = self.links.get()
        try:
            if it and not it.is_still():
                it.close()
                it = None
            if it is None:
                self.made += 1
                it = Link(self.address)
            yield it
        except BaseException:
            if it:
                it.close()
            it = None
            raise
        finally:
            self.links.put(it)

    def told(self, reply):
        """A reply, whose point is noted."""
        with self.lock:
            self.point = max(self.point, reply["point"])
        return reply

    def with_point(self, parameters):
        """The parameters, which ask for nothing older than what was told; what a query says is of the present anyway."""
        least = self.point if parameters["action"] in ("parse", "expandtemplates") else 0
        return {**parameters, "minpoint": least} if least else parameters

    def asked(self, many):
        """The replies to several requests, each an object, over one connection."""
        found = []
        with self.link() as it:
            sent, waiting, size = 0, 0, 0
            while len(found) < len(many):
                while sent < len(many) and waiting < AHEAD and (size < AHEAD_BYTES or not waiting):
                    data = it.written(self.with_point(many[sent]))
                    it.send(data)
                    sent, waiting, size = sent + 1, waiting + 1, size + len(data)
                found.append(self.told(it.reply()))
                waiting -= 1
                size = size if waiting else 0
        return found

    def ask_all(self, many):
        """The replies to several requests, also those that are errors. Reads are asked again where a connection was cut."""
        for again in (True, False):
            try:
                found = self.asked(many)
            except ConnectionRefusedError:
                raise ApiError("internal_api_error_DBConnectionError", "The wiki can't be reached.") from None
            except Cut:
                if again and not any(it["action"] in POSTED for it in many):
                    continue
                raise ApiError("internal_api_error_NoReply", "The wiki's reply was lost. If this was a save, read the page first: it may have been made.") from None
            except (TimeoutError, OSError):
                raise ApiError("internal_api_error_NoReply", "The wiki doesn't answer. If this was a save, read the page first: it may have been made.") from None
            if not self.is_restarted(found) or not again:
                return found
        return found

    def is_restarted(self, replies):
        """Whether points have begun anew, since the wiki was started again."""
        late = [it["error"]["latest"] for it in replies if it.get("error", {}).get("code") == "futurepoint"]
        if late:
            with self.lock:
                self.point = max(late)
        return bool(late)

    def ask(self, **parameters):
        """The reply to one request; an error of the wiki is raised."""
        reply = self.ask_all([parameters])[0]
        if "error" in reply:
            raise WikiError(reply["error"])
        return reply
