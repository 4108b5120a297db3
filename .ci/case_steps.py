"""The steps of the cases of commands and connections: `transcript` runs them one after the other and gives what came.
tests/README.md tells what each step does."""
import errno
import hashlib
import json
import os
import random
import re
import resource
import select
import shlex
import shutil
import signal
import socket
import sqlite3
import subprocess
import tempfile
import time

TOP = os.path.dirname(os.path.dirname(os.path.abspath(__file__)))
SECONDS = 120
PAUSE = 0.05
# How long a connection is listened to on which nothing comes.
QUIET = 0.5
# How long a second piece waits, so that the first one is mostly read before.
PIECE = 0.005
# Streams whose calls fail: a folder can't be read, and a full device can't be written.
FAILING = {"input": ("stdin", "/", os.O_RDONLY), "output": ("stdout", "/dev/full", os.O_WRONLY)}
# A program that finds a disk of so many KiB at the folder `disk`, which is gone behind it.
ON_DISK = ["unshare", "--user", "--map-root-user", "--mount", "sh", "-c", 'mount -t tmpfs -o size="$0"k none disk && exec "$@"']


def has_disks():
    """Whether this machine lets a program have a disk of its own."""
    try:
        with tempfile.TemporaryDirectory(prefix="kilandru-disk-") as folder:
            os.mkdir(os.path.join(folder, "disk"))
            return subprocess.run([*ON_DISK, "64", "true"], cwd=folder, stderr=subprocess.DEVNULL).returncode == 0
    except OSError:
        return False


def free_port():
    """A port at which nobody listens, and which the system gives no client (ip_local_port_range) meanwhile."""
    for port in random.sample(range(20000, 32000), 100):
        try:
            with socket.create_server(("127.0.0.1", port)):
                return port
        except OSError:
            pass
    raise OSError("no port is free")


def listens(port):
    """Whether a program listens at the port (proc(5): LISTEN is 0A)."""
    with open("/proc/net/tcp", encoding="ascii") as it:
        return any(re.match(rf" *\d+: \w+:{port:04X} \w+:\w+ 0A ", line) for line in it)


def bytes_of(text):
    """The bytes that a text with escapes and patterns stands for."""
    text = re.sub(r"<<((?:(?!>>\*).)*?)>>\*(\d+)", lambda it: it[1] * int(it[2]), text)
    plain = {"n": b"\n", "r": b"\r", "t": b"\t", "0": b"\0", "\\": b"\\"}
    found = b""
    for part in re.split(r"(\\x[0-9a-fA-F]{2}|\\[nrt0\\])", text):
        if part.startswith("\\x"):
            found += bytes.fromhex(part[2:])
        elif part.startswith("\\") and len(part) == 2:
            found += plain[part[1]]
        else:
            found += part.encode()
    return found


def text_of(data):
    """Bytes as a transcript shows them: a line each, with escapes for what is no text."""
    lines = []
    for line in data.decode(errors="surrogateescape").split("\n"):
        line = line.replace("\\", "\\\\").replace("\r", "\\r").replace("\0", "\\0")
        lines.append(re.sub("[\udc80-\udcff]", lambda it: f"\\x{ord(it[0]) - 0xDC00:02x}", line))
    return "\n".join(lines)


def lines_of(data, before=""):
    """The lines of what was written, each behind a mark."""
    if not data:
        return []
    ended = data.endswith(b"\n")
    lines = text_of(data[:-1] if ended else data).split("\n")
    return [before + it for it in lines] + ([] if ended else [f"{before}(no newline)"])


class Connection:
    """A client of the server that a case has started."""

    def __init__(self, port):
        self.socket = socket.create_connection(("127.0.0.1", port), SECONDS)
        # (each write is a packet of its own, so that pieces come as pieces)
        self.socket.setsockopt(socket.IPPROTO_TCP, socket.TCP_NODELAY, 1)
        self.held = b""

    def send(self, data, last=False):
        """Sends this, and then no more where it is the last. Where the other side has closed nothing is sent."""
        try:
            self.socket.sendall(data)
            if last:
                self.socket.shutdown(socket.SHUT_WR)
        except (BrokenPipeError, ConnectionResetError):
            pass
        except OSError as error:
            if error.errno != errno.ENOTCONN:
                raise

    def more(self):
        try:
            piece = self.socket.recv(1 << 16)
        except ConnectionResetError:
            piece = b""
        self.held += piece
        return bool(piece)

    def take(self, count):
        while len(self.held) < count and self.more():
            pass
        taken, self.held = self.held[:count], self.held[count:]
        return taken

    def response(self):
        """One whole response, or what came before the end."""
        while b"\r\n\r\n" not in self.held and self.more():
            pass
        head, end, self.held = self.held.partition(b"\r\n\r\n")
        if not end:
            return head
        length = re.search(rb"(?i)\r\ncontent-length: *(\d+)", head)
        return head + end + self.take(int(length[1]) if length else 0)

    def rest(self):
        while self.more():
            pass
        rest, self.held = self.held, b""
        return rest

    def quiet(self):
        """Whether nothing comes for a while."""
        return not self.held and not select.select([self.socket], [], [], QUIET)[0]


class Steps:
    """The steps of one case, its folder, and what goes on meanwhile."""

    def __init__(self, folder, paths):
        self.folder, self.paths, self.limits, self.files = folder, paths, {}, {}
        self.going = self.port = self.side = self.wiki_port = None
        self.ports = []
        self.connections = {}

    # Files

    def path(self, name):
        return os.path.join(self.folder, name)

    def sql(self, rest):
        name, _, statement = rest.partition(" ")
        with sqlite3.connect(self.path(name), isolation_level=None) as it:
            rows = it.execute(statement).fetchall()
        it.close()
        show = lambda value: {"hex": value.hex()} if isinstance(value, bytes) else value
        return [json.dumps([show(value) for value in row], ensure_ascii=False) for row in rows]

    def script(self, rest):
        name, _, statements = rest.partition(" ")
        it = sqlite3.connect(self.path(name), isolation_level=None)
        it.executescript(statements)
        it.close()

    def put(self, rest, mode):
        name, _, text = rest.partition(" ")
        with open(self.path(name), mode) as it:
            it.write(bytes_of(text))

    def overwrite(self, rest):
        name, offset, text = rest.split(" ", 2)
        with open(self.path(name), "r+b") as it:
            it.seek(int(offset))
            it.write(bytes_of(text))

    def file_step(self, word, rest):
        """The steps that look at files or change them, or None where the word is another one."""
        names = [self.path(it) for it in rest.split(" ")]
        yes_no = lambda it: ["yes" if it else "no"]
        data = lambda name: open(name, "rb").read()
        steps = {
            "sql": lambda: self.sql(rest),
            "script": lambda: self.script(rest),
            "write": lambda: self.put(rest, "wb"),
            "append": lambda: self.put(rest, "ab"),
            "overwrite": lambda: self.overwrite(rest),
            "cut": lambda: os.truncate(names[0], int(rest.split(" ")[1])),
            "copy": lambda: shutil.copyfile(*names) and None,
            "move": lambda: os.rename(*names),
            "bring": lambda: shutil.copyfile(f"{TOP}/{rest}", self.path(os.path.basename(rest))) and None,
            "remove": lambda: os.remove(names[0]),
            "folder": lambda: os.mkdir(names[0]),
            "size": lambda: [str(os.path.getsize(names[0]))],
            "exists": lambda: yes_no(os.path.exists(names[0])),
            "same": lambda: yes_no(data(names[0]) == data(names[1])),
            "sum": lambda: [hashlib.sha256(data(names[0])).hexdigest()[:16]],
        }
        return steps.get(word)

    # Programs

    def words(self, rest):
        words = shlex.split(rest.replace(":PORT", f":{self.port}"))
        return [self.paths[words[0]], *words[1:]]

    def limited(self):
        kinds = {"memory": (resource.RLIMIT_AS, 1 << 20), "file": (resource.RLIMIT_FSIZE, 1)}
        for kind in kinds.keys() & self.limits.keys():
            what, unit = kinds[kind]
            resource.setrlimit(what, (unit * self.limits[kind], unit * self.limits[kind]))
        signal.signal(signal.SIGXFSZ, signal.SIG_IGN)

    def begin(self, rest, **streams):
        limits = {"preexec_fn": self.limited} if self.limits else {}
        others = {stream: os.open(path, mode) for kind, (stream, path, mode) in FAILING.items() if kind in self.limits}
        others |= {stream: os.open(self.path(name), mode, 0o644) for stream, (name, mode) in self.files.items()}
        disk = [*ON_DISK, str(self.limits["disk"])] if "disk" in self.limits else []
        begun = subprocess.Popen([*disk, *self.words(rest)], cwd=self.folder, **(streams | others), **limits)
        for it in others.values():
            os.close(it)
        self.limits, self.files = {}, {}
        return begun

    def run(self, rest, given):
        pipe = subprocess.PIPE
        it = self.begin(rest, stdin=pipe, stdout=pipe, stderr=pipe)
        try:
            written, told = it.communicate(given, timeout=SECONDS)
        except subprocess.TimeoutExpired:
            it.kill()
            return [f"nothing within {SECONDS} seconds"]
        return [*lines_of(written), *lines_of(told, "! "), f"status {it.returncode}"]

    def start(self, rest, given):
        pipe = subprocess.PIPE
        self.going = self.begin(rest, stdin=pipe, stdout=pipe, stderr=pipe)
        if given:
            self.going.stdin.write(given)
            self.going.stdin.flush()

    def tell(self, rest):
        self.going.stdin.write(bytes_of(rest))
        self.going.stdin.flush()

    def heard(self, count):
        """So many lines that the program that goes on writes."""
        got = b""
        while got.count(b"\n") < count and select.select([self.going.stdout], [], [], SECONDS)[0]:
            byte = os.read(self.going.stdout.fileno(), 1)
            if not byte:
                break
            got += byte
        return lines_of(got)

    def unheard(self):
        """From here on nobody takes what the program writes."""
        self.going.stdout.close()

    def ended(self, by=None):
        """What the program writes until it ends, by a signal or at the end of its input."""
        it, self.going = self.going, None
        if by:
            it.send_signal(by)
        try:
            written, told = it.communicate(timeout=SECONDS)
        except subprocess.TimeoutExpired:
            it.kill()
            return [f"no end within {SECONDS} seconds"]
        return [*lines_of(written), *lines_of(told, "! "), f"status {it.returncode}"]

    # Connections

    def new_port(self):
        self.port = self.wiki_port = free_port()
        self.ports.append(self.port)

    def serve(self, rest):
        self.new_port()
        self.start(f"wiki serve {rest}" if "--listen" in rest else f"wiki serve --listen 127.0.0.1:PORT {rest}", b"")
        # (what goes into a file isn't heard)
        return self.heard(1) if self.going.stdout else self.until_it_listens()

    def until_it_listens(self):
        """Waits until the program listens, or has ended."""
        until = time.monotonic() + SECONDS
        while not listens(self.port) and self.going.poll() is None and time.monotonic() < until:
            time.sleep(PIECE)

    def replica(self, rest, given):
        self.new_port()
        self.start(f"wiki replica --listen 127.0.0.1:PORT {rest}", given)
        self.until_it_listens()

    def point(self, least):
        """The point that the server tells once it is at least this: it is asked again and again on a connection of its own."""
        it, until = Connection(self.port), time.monotonic() + SECONDS
        while True:
            it.send(b"GET /api.php?action=query&meta=tokens HTTP/1.1\r\n\r\n")
            found = re.search(rb'"point":(\d+)', it.response())
            if not found or least <= int(found[1]) or until < time.monotonic():
                it.socket.close()
                return [found[1].decode() if found else "no reply"]
            time.sleep(PIECE)

    def knock(self):
        """Comes as one client after the other until the program has ended: what it wrote until then."""
        until = time.monotonic() + SECONDS
        while self.going.poll() is None and time.monotonic() < until:
            try:
                socket.create_connection(("127.0.0.1", self.port), SECONDS).close()
            except OSError:
                pass
            time.sleep(PAUSE)
        return self.ended()

    def beside(self, rest):
        """Starts bin/mediawiki-api in front of the server, in the place of one that was there; what follows is asked of it."""
        self.end_side()
        words = [self.paths["mediawiki-api"], "--listen", "127.0.0.1:0", "--wiki", f"127.0.0.1:{self.wiki_port}", *shlex.split(rest)]
        self.side = subprocess.Popen(words, cwd=self.folder, stdin=subprocess.DEVNULL, stdout=subprocess.PIPE, stderr=subprocess.STDOUT)
        line = self.side.stdout.readline()
        if found := re.search(rb"127\.0\.0\.1:(\d+)", line):
            self.port = int(found[1])
            self.ports.append(self.port)
        return lines_of(line)

    def end_side(self):
        """Ends bin/mediawiki-api; what it has told of its faults."""
        it, self.side = self.side, None
        if it:
            it.terminate()
            return lines_of(it.communicate()[0])
        return []

    def heard_of(self, *pieces):
        """What comes on a connection of its own, on which these pieces are sent and then no more."""
        it = Connection(self.port)
        for at, piece in enumerate(pieces):
            time.sleep(PIECE if at else 0)
            it.send(piece, at + 1 == len(pieces))
        heard = it.rest()
        it.socket.close()
        return lines_of(heard)

    def at_each(self, pieces_at, count):
        """What comes at each place, once for places that stand together and at which the same comes."""
        heard = [self.heard_of(*pieces_at(at)) for at in range(count)]
        found, first = [], 0
        for at in range(count):
            if at + 1 == count or heard[at + 1] != heard[first]:
                found += [f"at {first} to {at}", *heard[first]]
                first = at + 1
        return found

    def cuts(self, rest):
        data = bytes_of(rest)
        return self.at_each(lambda at: (data[:at], data[at:]), len(data) + 1)

    def ends(self, rest):
        data = bytes_of(rest)
        return self.at_each(lambda at: (data[:at],), len(data) + 1)

    def request(self, rest):
        """A message on a connection of its own: the status and the body."""
        method, target, body = (rest.split(" ", 2) + [""])[:3]
        data = bytes_of(body)
        form = b"Content-Type: application/x-www-form-urlencoded\r\n" if data else b""
        it = Connection(self.port)
        it.socket.sendall(b"%s %s HTTP/1.1\r\nHost: 127.0.0.1:%d\r\nConnection: close\r\n%sContent-Length: %d\r\n\r\n%s" % (method.encode(), bytes_of(target), self.port, form, len(data), data))
        head, _, body = it.response().partition(b"\r\n\r\n")
        it.rest()
        time.sleep(PAUSE)
        return [*lines_of(head.split(b"\r\n")[0] + b"\n"), *lines_of(body)]

    def connection_step(self, word, rest):
        name, _, text = rest.partition(" ")
        of = self.connections.get(name)
        steps = {
            "serve": lambda: self.serve(rest),
            "beside": lambda: self.beside(rest),
            "aside": lambda: self.end_side(),
            "open": lambda: self.connections.__setitem__(name, Connection(self.port)),
            "send": lambda: of.send(bytes_of(text.replace(":PORT", f":{self.port}"))),
            "shut": lambda: of.send(b"", True),
            "read": lambda: lines_of(of.response()),
            "rest": lambda: lines_of(of.rest()),
            "close": lambda: of.socket.close(),
            "quiet": lambda: ["yes" if of.quiet() else "no"],
            "point": lambda: self.point(int(rest)),
            "knock": lambda: self.knock(),
            "pause": lambda: time.sleep(PAUSE),
            "request": lambda: self.request(rest),
            "cuts": lambda: self.cuts(rest),
            "ends": lambda: self.ends(rest),
            "stop": lambda: self.ended(signal.SIGTERM),
            "served": lambda: self.ended(),
        }
        return steps.get(word)

    # All

    def step(self, word, rest, given):
        """What a step gives, a line each."""
        programs = {
            "$": lambda: self.run(rest, given),
            "start": lambda: self.start(rest, given),
            "tell": lambda: self.tell(rest),
            "heard": lambda: self.heard(int(rest)),
            "unheard": lambda: self.unheard(),
            "from": lambda: self.files.__setitem__("stdin", (rest, os.O_RDONLY)),
            "into": lambda: self.files.__setitem__("stdout", (rest, os.O_WRONLY | os.O_CREAT | os.O_APPEND)),
            "replica": lambda: self.replica(rest, given),
            "kill": lambda: self.ended(signal.Signals[rest]),
            "end": lambda: self.ended(),
            "limit": lambda: self.limits.update({rest.split(" ")[0]: int(rest.split(" ")[1])}),
        }
        step = programs.get(word) or self.file_step(word, rest) or self.connection_step(word, rest)
        if step is None:
            raise ValueError(f"{word} is no step")
        return step() or []

    def close(self):
        for it in self.connections.values():
            it.socket.close()
        self.end_side()
        if self.going:
            self.going.kill()
            self.going.communicate()


def parted(text):
    """The steps of a case, each with the bytes of its input."""
    found = []
    for line in text.split("\n"):
        if line.startswith(("< ", "<| ")):
            given = bytes_of(line[2:] if line.startswith("< ") else line[3:])
            found[-1][2] += given + (b"\n" if line.startswith("< ") else b"")
        elif line == "<":
            found[-1][2] += b"\n"
        elif line and not line.startswith("#"):
            word, _, rest = line.partition(" ")
            found.append([word, rest, b""])
    return found


def without_moments(text):
    """What came, without the moments of replies and of the rows and saves of a feed."""
    text = re.sub(r'"timestamp":\d+', '"timestamp":N', text)
    text = re.sub(r'^(\["revision",\d+,\d+,\d+),\d+,', r"\1,N,", text, flags=re.M)
    return re.sub(r'^(\["save",".*),\d+\]$', r"\1,N]", text, flags=re.M)


def transcript(text, folder, paths):
    """The steps of a case and what came of each."""
    steps, lines = Steps(folder, paths), []
    try:
        for word, rest, given in parted(text):
            lines.append(f"{word} {rest}".rstrip())
            lines += steps.step(word, rest, given)
    finally:
        steps.close()
    whole = "".join(f"{it}\n" for it in lines)
    if steps.wiki_port != steps.port:
        whole = re.sub(r"\d{4}-\d\d-\d\dT\d\d:\d\d:\d\dZ", "MOMENT", whole)
    for port in steps.ports:
        whole = whole.replace(f":{port}", ":PORT")
    return without_moments(whole)
