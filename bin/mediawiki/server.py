"""The server: requests and replies of HTTP."""
import contextlib
import sys
import threading
import traceback

from mediawiki import actions
from mediawiki.asked import Site
from mediawiki.categories import Gatherer
from mediawiki.errors import ApiError, WikiError
from mediawiki.forms import parameters
from mediawiki.index import Index
from mediawiki.members import Kept
from mediawiki.pages import Reader
from mediawiki.shapes import written
from mediawiki.wiki import Wiki
from serving import Handler, Refused, Server

PATHS = {"/api.php", "/w/api.php"}
JSON = "application/json; charset=utf-8"
# Addresses at which all of the machine's are listened at, and names of the loopback.
ALL, LOOPBACK = {"0.0.0.0", "::", ""}, {"127.0.0.1", "::1", "localhost"}


def refusal(status, words):
    """The error of a request that isn't answered."""
    return written({"error": {"code": f"http-{status}", "info": words}}, 2, True)


class Api(Handler):
    """Answers the requests of a connection one after the other."""

    fixed = {"X-Content-Type-Options": "nosniff"}
    ends = False

    def do_GET(self):
        self.unread = 0
        try:
            # (the body first, so that the next request begins behind it)
            body = self.body()
            self.check_where_from()
            path, _, query = self.path.partition("?")
            if path not in PATHS:
                raise Refused(404, "There is nothing at this address: the API is at /api.php.")
            reply = self.reply(query, body)
            self.answer(200, JSON, reply.data, reply.headers)
        except Refused as it:
            self.answer(it.status, JSON, refusal(it.status, str(it)))

    def send_error(self, code, message=None, explain=None):
        """What is no request of HTTP/1.1, or asks by another method."""
        self.close_connection = True
        self.request_version = self.protocol_version
        self.answer(code, JSON, refusal(code, f"{message or 'The request was not understood.'}"))

    do_HEAD = do_POST = do_GET

    def reply(self, query, body):
        given, in_address = parameters(query, self.headers.get("Content-Type") or "", body if self.command == "POST" else b"")
        try:
            return actions.answer(given, in_address, self.server, self.command == "POST", self.client_address[0])
        except OSError:
            raise
        except Exception:
            # (a fault of this program: whoever runs it sees where, and the client that there was one)
            traceback.print_exc(file=sys.stderr)
            return actions.fault()


class ApiServer(Server):
    """Listens at an address, in front of a wiki."""

    def __init__(self, words):
        super().__init__(words.listen, Api)
        self.is_open = words.listen[0] in ALL and not words.base
        self.hosts += [f"localhost:{self.server_address[1]}"] if words.listen[0] in LOOPBACK else []
        if words.base:
            self.base = words.base.rstrip("/") + "/"
        self.own = self.base.partition("://")[2].partition("/")[0].lower()
        self.hosts.append(self.own)
        self.site = Site(self.base.rstrip("/"), words.name)
        self.wiki = Wiki(words.wiki, words.connections)
        self.index, self.members = Index(words.state), Kept()
        self.gatherer = Gatherer(self.wiki, self.index)
        threading.Thread(target=self.follow, daemon=True).start()

    def follow(self):
        """Takes the titles of all pages before somebody asks for them; where the wiki isn't there yet, who asks does it."""
        with contextlib.suppress(ApiError, WikiError):
            self.index.follow(Reader(self.wiki, self.index))

    def is_host(self, host):
        return self.is_open or host in self.hosts

    def is_origin(self, origin, host):
        return origin.partition("://")[2].lower() in (host, self.own)
