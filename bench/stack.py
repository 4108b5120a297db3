"""What bench/kills and bench/scaling share: a primary, two replicas that follow it by a file or through Redis, and nginx in front of
them, begun by the scripts of examples/replica at ports of 127.0.0.1; clients of these; and what is compared of wikis.

It wants nginx, and for Redis redis-server and python3-redis, of Debian's packages. BENCH_FOLDER is where their files lie."""

import collections
import http.client
import json
import os
import shutil
import signal
import socket
import subprocess
import tempfile
import threading
import time
import urllib.parse

from measure import TOP, program

SCRIPTS = f"{TOP}/examples/replica"
FOLDER = os.environ.get("BENCH_FOLDER")
REPLICAS = ("replica 1", "replica 2")
WIKIS = ("primary", *REPLICAS)
# How long the primary waits before it serves, by the way on which replicas follow.
WAITS = {"file": 2, "redis": 7}
# (below the ports that the system gives to connections)
PORTS = iter(range(18500, 32000))
SITE = "action=query&meta=siteinfo"


def free_port():
    """A port at which nobody listens; each one once."""
    for port in PORTS:
        with socket.socket() as it:
            if it.connect_ex(("127.0.0.1", port)):
                return port
    raise SystemExit("bench: no port is free")


class Stack:
    """A primary over a store, replicas that follow it by a file or through Redis, and nginx. `at` says on which processors a part runs,
    by its name."""

    def __init__(self, by="file", store=None, at=None):
        self.by, self.at, self.running = by, at or {}, {}
        self.folder = tempfile.mkdtemp(prefix="kilandru-stack-", dir=FOLDER)
        os.chmod(self.folder, 0o755)
        self.store = f"{self.folder}/wiki.db"
        if store:
            shutil.copy(store, self.store)
        self.port = {name: free_port() for name in (*WIKIS, "nginx", "redis")}
        for name in ("redis", "nginx"):
            os.mkdir(f"{self.folder}/{name}")
        self.configure()

    def configure(self):
        """Writes nginx's configuration, with the ports of this stack."""
        with open(f"{SCRIPTS}/nginx.conf", encoding="utf-8") as it:
            text = it.read()
        for port, name in zip((8080, 8081, 8082, 8000), (*WIKIS, "nginx")):
            text = text.replace(f"127.0.0.1:{port}", f"127.0.0.1:{self.port[name]}")
        with open(f"{self.folder}/nginx.conf", "w", encoding="utf-8") as it:
            it.write(text)

    def __enter__(self):
        return self

    def __exit__(self, *_):
        for it in self.running.values():
            try:
                os.killpg(it.pid, signal.SIGKILL)
            except ProcessLookupError:
                pass
            it.wait()
        shutil.rmtree(self.folder, ignore_errors=True)

    def address(self, name):
        return f"127.0.0.1:{self.port[name]}"

    def words(self, name):
        """What begins a part."""
        feeds, redis = f"{self.folder}/feeds", self.address("redis")
        source = [f"{SCRIPTS}/feed", feeds] if self.by == "file" else [f"{SCRIPTS}/from_redis", "--redis", redis]
        if name in REPLICAS:
            return [f"{SCRIPTS}/follow", self.address(name), *source]
        return {
            "primary": [f"{SCRIPTS}/primary", feeds, self.address("primary"), self.store],
            "nginx": [shutil.which("nginx", path="/usr/sbin:/usr/bin"), "-e", "stderr", "-p", f"{self.folder}/nginx", "-c", f"{self.folder}/nginx.conf"],
            "redis": ["redis-server", "--port", str(self.port["redis"]), "--dir", f"{self.folder}/redis", "--appendonly", "yes", "--save", ""],
            "to_redis": [f"{SCRIPTS}/to_redis", feeds, "--redis", redis],
        }[name]

    def begin(self, *names):
        """Begins these parts."""
        around = {**os.environ, "WIKI": program("wiki"), "WAIT": str(WAITS[self.by]), "SPOOL": self.folder}
        for name in names:
            words = (["taskset", "-c", self.at[name]] if name in self.at else []) + self.words(name)
            with open(f"{self.folder}/{name}.log", "ab") as log:
                self.running[name] = subprocess.Popen(words, stdin=subprocess.DEVNULL, stdout=log, stderr=log, env=around, start_new_session=True)

    def begin_all(self):
        """Begins all parts, and waits until all wikis are at one point."""
        self.begin(*(("redis", "to_redis") if self.by == "redis" else ()), "primary", *REPLICAS, "nginx")
        self.settle()

    def process(self, name):
        """The process of a part: of a replica, that of the program, None where it isn't begun at the moment."""
        pid = self.running[name].pid
        if name not in REPLICAS:
            return pid
        try:
            with open(f"/proc/{pid}/task/{pid}/children", encoding="ascii") as it:
                return next((int(child) for child in it.read().split() if "replica" in words_of(child)), None)
        except OSError:
            return None

    def signal(self, name, number):
        """Sends a signal to a part's process, once it is there, and gives its number."""
        pid = wait_for(lambda: self.process(name), 60, f"{name} isn't begun")
        os.kill(pid, number)
        return pid

    def end(self, name):
        """Ends a part by SIGKILL. A replica is begun again by `follow`."""
        pid = self.signal(name, signal.SIGKILL)
        if name in REPLICAS:
            wait_for(lambda: None if os.path.exists(f"/proc/{pid}") else pid, 60, f"{name} isn't ended")
        else:
            self.running[name].wait()

    def kill(self, name):
        """Ends a part by SIGKILL, and begins it again as a supervisor does."""
        self.end(name)
        if name not in REPLICAS:
            self.begin(name)

    def empty(self, name):
        """Ends a part by SIGKILL, takes all that it had written, and begins it again."""
        self.end(name)
        shutil.rmtree(f"{self.folder}/{name}")
        os.mkdir(f"{self.folder}/{name}")
        self.begin(name)

    def settle(self, seconds=600):
        """Waits until the primary answers, and each replica has taken what it had then."""
        point = wait_for(lambda: point_of(self.port["primary"]), seconds, "the primary doesn't answer")
        for name in REPLICAS:
            wait_for(lambda name=name: self.has_come(name, point), seconds, f"{name} doesn't come to point {point}")

    def has_come(self, name, point):
        """Whether a wiki has come to this point; None where it hasn't."""
        present = point_of(self.port[name])
        return True if present is not None and present >= point else None

    def rest(self):
        """Asks the primary until no job is left, and waits for the replicas. The point of all three."""
        while json.loads(asked(self.port["primary"], SITE)[1])["query"]["statistics"]["jobs"]:
            pass
        self.settle()
        return point_of(self.port["primary"])


def words_of(pid):
    """The words of a process."""
    with open(f"/proc/{pid}/cmdline", "rb") as it:
        return it.read().decode(errors="replace").split("\0")


def wait_for(find, seconds, what):
    """Waits until something is found, and gives it."""
    end = time.monotonic() + seconds
    while (found := find()) is None:
        if time.monotonic() > end:
            raise SystemExit(f"bench: {what}")
        time.sleep(0.02)
    return found


def send(link, query, body=None):
    """The status and the bytes of a reply; with a body the request is posted."""
    kind = {"Content-Type": "application/x-www-form-urlencoded"} if body is not None else {}
    link.request("GET" if body is None else "POST", f"/api.php?{query}" if query else "/api.php", body, kind)
    reply = link.getresponse()
    return reply.status, reply.read()


def linked(port, seconds=60):
    """A connection to a wiki, or to nginx."""
    return http.client.HTTPConnection("127.0.0.1", port, timeout=seconds)


def asked(port, query, body=None, seconds=30):
    """The same over a connection of its own."""
    link = linked(port, seconds)
    try:
        return send(link, query, body)
    finally:
        link.close()


def point_of(port):
    """The point of a wiki, None where it doesn't answer."""
    try:
        return json.loads(asked(port, SITE, seconds=5)[1])["point"]
    except (OSError, http.client.HTTPException, ValueError):
        return None


def edit_of(title, text):
    return urllib.parse.urlencode({"action": "edit", "title": title, "text": text, "token": "+\\"})


# What a client noted of a request: when it was sent and when it ended; how, which is `well`, the code of an error, the status of a
# refusal, or the name of what the connection met; what it was about; and the point and the new revision that the reply told.
Noted = collections.namedtuple("Noted", "began ended how what point revision")


class Client(threading.Thread):
    """Asks one thing after the other over a kept connection, so many seconds behind the reply to the last one, until it is told to
    stop, and notes what came of each."""

    # The codes of errors that are what was asked for.
    FINE = ()

    def __init__(self, port, number, pause=0):
        super().__init__(daemon=True)
        self.port, self.number, self.pause, self.noted, self.stopped, self.count = port, number, pause, [], False, 0

    def next(self):
        """What is asked next: a query, a body, and what it is about."""
        raise NotImplementedError

    def came(self, link, query, body):
        """How a request ended, and the point and the new revision that its reply tells."""
        try:
            status, reply = send(link, query, body)
        except (OSError, http.client.HTTPException) as error:
            link.close()
            return type(error).__name__, None, None
        if status != 200:
            return f"status {status}", None, None
        reply = json.loads(reply)
        code = reply.get("error", {}).get("code")
        return "well" if code is None or code in self.FINE else code, reply.get("point"), reply.get("edit", {}).get("newrevid")

    def run(self):
        link = linked(self.port)
        while not self.stopped:
            self.count += 1
            query, body, what = self.next()
            began = time.monotonic()
            how, point, revision = self.came(link, query, body)
            self.noted.append(Noted(began, time.monotonic(), how, what, point, revision))
            time.sleep(self.pause if how == "well" else 0.02)
        link.close()

    def end(self):
        """Stops it, and waits until it has. What it noted."""
        self.stopped = True
        self.join()
        return self.noted


class Saver(Client):
    """Saves pages, each text once, and now and then the template that they include."""

    PAGES = 50

    def title(self, number):
        return f"P{self.number} {number % self.PAGES}"

    def next(self):
        title, text = self.title(self.count), "{{Note|%d}} [[%s]] [[Category:C%d]] " % (self.number, self.title(self.count + 1), self.count % 5)
        if self.count % 100 == 0:
            title, text = "Template:Note", "({{{1|}}}) "
        text += f"{self.number} {self.count}"
        return "", edit_of(title, text), (title, text)


class Reader(Client):
    """Reads the pages of the saver with its number."""

    FINE = ("missingtitle",)

    def next(self):
        title = f"P{self.number} {self.count % Saver.PAGES}"
        return f"action=parse&page={urllib.parse.quote_plus(title)}", None, title


def titles_of(savers):
    """The titles that these savers save."""
    return ["Template:Note", *(f"P{it.number} {number}" for it in savers for number in range(Saver.PAGES))]


def queries(titles):
    """What is asked of each of these pages, and of the wiki."""
    for title in map(urllib.parse.quote_plus, titles):
        yield f"action=parse&page={title}"
        yield f"action=query&prop=revisions&titles={title}&rvprop=content"
        yield f"action=query&list=backlinks&bltitle={title}&bllimit=500"
        yield f"action=query&list=embeddedin&eititle={title}&eilimit=500"
    for number in range(5):
        yield f"action=query&list=categorymembers&cmtitle=Category:C{number}&cmlimit=500"
    yield "action=query&list=recentchanges&rclimit=500"
    yield SITE


NEXT = {"prop=revisions": "rvcontinue", "list=backlinks": "blcontinue", "list=embeddedin": "eicontinue", "list=categorymembers": "cmcontinue", "list=recentchanges": "rccontinue"}


def unlike(stack, titles, point):
    """How many replies of these pages were compared, of three wikis that are at this point, and the queries whose replies differ."""
    count, wrong = 0, []
    links = [linked(stack.port[name]) for name in WIKIS]
    for query in queries(titles):
        more = ""
        while more is not None:
            replies = [send(link, f"{query}&minpoint={point}{more}")[1] for link in links]
            count += 1
            if replies.count(replies[0]) != len(replies):
                wrong.append(query + more)
            following = json.loads(replies[0]).get("continue")
            more = None if following is None else next(f"&{name}={following}" for kind, name in NEXT.items() if kind in query)
    for link in links:
        link.close()
    return count, wrong


def history(link, title):
    """The texts of a page, by the numbers of its revisions, each of which comes in a reply of its own."""
    found, more = {}, ""
    while True:
        reply = json.loads(send(link, f"action=query&prop=revisions&titles={urllib.parse.quote_plus(title)}&rvprop=content{more}")[1])
        found |= {it["revid"]: it.get("content") for it in reply.get("query", {}).get("revisions", ())}
        if "continue" not in reply:
            return found
        more = f"&rvcontinue={reply['continue']}"
