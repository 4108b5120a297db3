"""What the servers beside a wiki share, bin/web and bin/mediawiki-api: a request that is read whole, a reply that is written
whole, and refusals of requests that another site's page makes."""
import argparse
import http.server
import socket
import socketserver
import sys
import threading

PLAIN = "text/plain; charset=utf-8"
LONGEST_REQUEST = 8 << 20
# A text of 2 MiB, each byte of which is written as six in JSON, is a fifth of this.
LONGEST_REPLY = 64 << 20
# How long is waited for a client that sends or takes nothing, and how many are served at once.
CLIENT_SECONDS, CLIENTS = 60, 256


class Refused(Exception):
    """A request that is answered with this status and these words."""

    def __init__(self, status, words):
        super().__init__(words)
        self.status = status


class Handler(http.server.BaseHTTPRequestHandler):
    """Answers the requests of a connection."""

    protocol_version = "HTTP/1.1"
    timeout = CLIENT_SECONDS
    disable_nagle_algorithm = True
    # How much of a body wasn't read, the headers of each reply, and whether a connection ends with its first reply.
    unread = 0
    fixed = {}
    ends = True

    def check_where_from(self):
        """Refuses what names another host than this, and a POST that another site's page makes."""
        hosts = self.headers.get_all("Host", [])
        if len(hosts) != 1 or not self.server.is_host(hosts[0].lower()):
            raise Refused(421, f"This address isn't served here. Open {self.server.base}")
        if self.command == "POST" and any(not self.server.is_origin(it, hosts[0].lower()) for it in self.headers.get_all("Origin", [])):
            raise Refused(403, "A page of another site may not change this wiki.")

    def body(self):
        """The body of the request, whole."""
        lengths = self.headers.get_all("Content-Length", [])
        if "Transfer-Encoding" in self.headers:
            self.unread = LONGEST_REPLY
            raise Refused(501, "A body has to come with its length.")
        if not lengths and self.command == "POST":
            raise Refused(411, "A body has to come with its length.")
        if len(lengths) > 1 or not all(it.isascii() and it.isdigit() and len(it) < 20 for it in lengths):
            self.unread = LONGEST_REPLY
            raise Refused(400, "The length of the body is no number.")
        length = int(lengths[0]) if lengths else 0
        self.unread = length
        if length > LONGEST_REQUEST:
            raise Refused(413, "The request is longer than 8 MiB.")
        body = self.rfile.read(length)
        self.unread = 0
        if len(body) < length:
            self.close_connection = True
            raise Refused(400, "The request was cut.")
        return body

    def answer(self, status, kind, body, more=None):
        """Writes a reply; the connection ends with it where it has to, or where something of its request wasn't read."""
        if self.ends or self.unread:
            self.close_connection = True
        self.send_response_only(status)
        given = {**self.fixed, "Content-Type": kind, "Content-Length": len(body), "Cache-Control": "no-cache", **(more or {})}
        for name, value in given.items():
            self.send_header(name, str(value))
        if self.close_connection:
            self.send_header("Connection", "close")
        # (in one piece, so that the network doesn't wait between the two)
        head = getattr(self, "_headers_buffer", [])
        self._headers_buffer = []
        self.wfile.write(b"".join([*head, b"\r\n" if head else b"", body if self.command != "HEAD" else b""]))
        if self.unread:
            self.read_away()

    def read_away(self):
        """Takes what is left of a body that was refused, for a while: a browser shows a reply only once it has sent all."""
        self.connection.shutdown(socket.SHUT_WR)
        self.connection.settimeout(2)
        left = min(self.unread, LONGEST_REPLY)
        while left > 0 and (got := self.rfile.read1(min(left, 1 << 16))):
            left -= len(got)

    def send_error(self, code, message=None, explain=None):
        """What is no request of HTTP/1.1, in the form of the other replies."""
        self.close_connection = True
        self.request_version = self.protocol_version
        self.answer(code, PLAIN, f"{message or 'The request was not understood.'}\n".encode())

    def log_message(self, *_):
        pass


class Server(socketserver.ThreadingTCPServer):
    """Listens at an address, with a thread for each connection, and as many connections as `CLIENTS` at once."""

    allow_reuse_address = True
    daemon_threads = True
    request_queue_size = 64

    def __init__(self, listen, handler):
        host, port = listen
        self.address_family = socket.getaddrinfo(host, port, type=socket.SOCK_STREAM)[0][0]
        super().__init__((host, port), handler)
        self.room = threading.BoundedSemaphore(CLIENTS)
        # (port 0 asks the system for a free one; a client leaves port 80 out)
        port = self.server_address[1]
        name = (f"[{host}]" if ":" in host else host).lower()
        self.hosts = [f"{name}:{port}"] + ([name] if port == 80 else [])
        self.base = f"http://{self.hosts[0]}/"

    def is_host(self, host):
        """Whether requests to this host are answered."""
        return host in self.hosts

    def is_origin(self, origin, host):
        """Whether pages of this origin may post here; `host` is the one that the request names."""
        return origin in [f"http://{it}" for it in self.hosts]

    def process_request(self, request, client_address):
        self.room.acquire()
        super().process_request(request, client_address)

    def process_request_thread(self, request, client_address):
        try:
            super().process_request_thread(request, client_address)
        finally:
            self.room.release()

    def handle_error(self, request, client_address):
        if not isinstance(sys.exc_info()[1], OSError):
            super().handle_error(request, client_address)


def address(text):
    """A host and a port, of HOST:PORT or [HOST]:PORT."""
    host, colon, port = text.rpartition(":")
    if not colon or not host or not (port.isascii() and port.isdigit()) or int(port) > 65535:
        raise argparse.ArgumentTypeError(f"{text!r} isn't HOST:PORT")
    return host.removeprefix("[").removesuffix("]"), int(port)
