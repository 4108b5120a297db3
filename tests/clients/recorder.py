"""Stands between a client and a wiki, and keeps each request with its reply."""
import email.parser
import http.client
import http.server
import json
import threading
import urllib.parse

# A request with this value of `requestid` only waits for jobs, or is the script's own: it isn't compared.
WAITS = "waits"
# (Host becomes the wiki's own, as nginx has it.)
DROPPED = {"host", "accept-encoding", "connection", "te", "expect"}


def parameters(query, content_type, body):
    """The parameters of a request; of two with one name the last, and the body's before the query's, as PHP has them."""
    found = dict(urllib.parse.parse_qsl(query, keep_blank_values=True))
    if content_type.startswith("multipart/form-data"):
        parts = email.parser.BytesParser().parsebytes(b"Content-Type: " + content_type.encode() + b"\r\n\r\n" + body)
        if parts.is_multipart():
            found.update((it.get_param("name", header="content-disposition"), it.get_payload(decode=True).decode("utf-8", "replace")) for it in parts.get_payload())
    else:
        found.update(urllib.parse.parse_qsl(body.decode("utf-8", "replace"), keep_blank_values=True))
    return found


def decoded(body):
    try:
        return json.loads(body)
    except ValueError:
        return body.decode("utf-8", "replace")


class Handler(http.server.BaseHTTPRequestHandler):
    protocol_version = "HTTP/1.1"
    timeout = 120

    def answer(self):
        body = self.rfile.read(int(self.headers.get("Content-Length") or 0))
        headers = {name: value for name, value in self.headers.items() if name.lower() not in DROPPED}
        connection = http.client.HTTPConnection(self.server.target, timeout=600)
        try:
            connection.request(self.command, self.path, body if body or self.command == "POST" else None, headers)
            reply = connection.getresponse()
            content = reply.read()
        finally:
            connection.close()
        path, _, query = self.path.partition("?")
        asked = parameters(query, self.headers.get("Content-Type", ""), body)
        is_own = asked.get("requestid") == WAITS
        if not is_own or asked.get("action") == "edit":
            kept = {"method": self.command, "path": path, "asked": asked, "status": reply.status, "type": reply.getheader("Content-Type", ""), "reply": decoded(content)}
            if is_own:
                kept["own"] = True
            errors = reply.getheader("MediaWiki-API-Error")
            if errors:
                kept["header"] = errors
            self.server.kept.append(kept)
        self.send_response(reply.status)
        for name, value in reply.getheaders():
            if name.lower() not in ("connection", "content-length", "transfer-encoding", "keep-alive", "date", "server"):
                self.send_header(name, value)
        self.send_header("Content-Length", str(len(content)))
        self.end_headers()
        if self.command != "HEAD":
            self.wfile.write(content)

    do_GET = do_POST = do_PUT = do_DELETE = do_HEAD = do_OPTIONS = answer

    def log_message(self, format, *args):
        pass


class Recorder(http.server.ThreadingHTTPServer):
    """Listens at 127.0.0.1:port, and hands each request to the wiki at target, a host and a port."""

    daemon_threads = True

    def __init__(self, port, target):
        super().__init__(("127.0.0.1", port), Handler)
        self.target, self.kept = target, []
        threading.Thread(target=self.serve_forever, daemon=True).start()

    def end(self):
        self.shutdown()
        self.server_close()
