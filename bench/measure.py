"""Programs that run, the processor's time that they take, and their instructions, as callgrind counts them.

What one line or message takes is the difference of a few and of many, sent to one process one behind the other: so its start,
its opening of a store and what was sent before fall out. BENCH_SECONDS (120) is how long one count of instructions may take;
behind it, and where valgrind isn't there, it is None, which a table shows as `-`. WIKI, PROBE, BENCH and REPLICA_BENCH name
other programs than those that fit the sources, which were built here or are the release, and are built first where there are none."""

import glob
import os
import re
import shutil
import socket
import subprocess
import tempfile
import threading
import time

TOP = os.path.dirname(os.path.dirname(os.path.abspath(__file__)))
LIMIT = float(os.environ.get("BENCH_SECONDS", "120"))
INSTEAD = {"wiki": "WIKI", "wk_probe": "PROBE", "wk_bench": "BENCH", "wk_replica_bench": "REPLICA_BENCH"}
READY = {}


def program(name):
    """The path of the program, which is built first where it has to be."""
    if INSTEAD[name] in os.environ:
        return os.environ[INSTEAD[name]]
    if name not in READY:
        READY[name] = subprocess.run([f"{TOP}/bin/programs.py", name], stdout=subprocess.PIPE, check=True, encoding="utf-8").stdout.strip()
    return READY[name]


class Ended(Exception):
    """The program ended, or was ended, before it had answered."""


def checked(piece):
    """Ends the bench where these bytes of answers tell of an error: then it isn't what was to be measured."""
    at = piece.find(b'"error":')
    if at >= 0:
        raise SystemExit(f"bench: an answer tells of an error: {piece[at : at + 200].decode(errors='replace')}")


class Running:
    """A program that runs. `counts` says what instructions are counted: None for none, else the functions within which
    they count, none of these for all. They are counted from `begin` on, or from the start. `settings` are variables of its
    environment beside this one's."""

    def __init__(self, name, *words, counts=None, from_start=False, stack=None, settings=None):
        self.folder = tempfile.mkdtemp(prefix="bench-")
        command = [program(name), *map(str, words)]
        if counts is not None:
            tool = ["valgrind", "--tool=callgrind", f"--instr-atstart={'yes' if from_start else 'no'}"]
            tool += [f"--callgrind-out-file={self.folder}/count", *(f"--toggle-collect={it}" for it in counts)]
            command = tool + command
        if stack:
            command = ["sh", "-c", f'ulimit -s {stack} && exec "$@"', "sh", *command]
        around = {**os.environ, **(settings or {})}
        self.process = subprocess.Popen(command, env=around, stdin=subprocess.PIPE, stdout=subprocess.PIPE, stderr=subprocess.DEVNULL)
        self.timer = threading.Timer(LIMIT, self.process.kill) if counts is not None else None
        if self.timer:
            self.timer.start()

    def __enter__(self):
        return self

    def __exit__(self, *_):
        if self.timer:
            self.timer.cancel()
        self.process.kill()
        self.process.wait()
        self.process.stdout.close()
        shutil.rmtree(self.folder)

    def end(self):
        """Lets the program come to its end."""
        self.process.stdin.close()
        if self.process.wait() != 0:
            raise SystemExit(f"bench: the program ended with status {self.process.returncode}")

    def ask(self, lines):
        """Sends the lines, and waits until each is answered with a line. The bytes of the answers."""
        feeder = threading.Thread(target=self.feed, args=(lines,))
        feeder.start()
        wanted, size = len(lines), 0
        while wanted > 0:
            piece = os.read(self.process.stdout.fileno(), 1 << 20)
            if not piece:
                raise Ended
            checked(piece)
            size += len(piece)
            wanted -= piece.count(b"\n")
        feeder.join()
        return size

    def feed(self, lines):
        try:
            self.process.stdin.write(("\n".join(lines) + "\n" if lines else "").encode())
            self.process.stdin.flush()
        except OSError:
            pass

    def seconds(self):
        """The processor's seconds that the program took so far."""
        return time.clock_gettime((~self.process.pid << 3) | 2)

    def told(self, file, name):
        """The bytes of memory that the system tells of it in this file under this name."""
        with open(f"/proc/{self.process.pid}/{file}", encoding="utf-8") as it:
            return 1024 * int(re.search(rf"^{name}:\s+(\d+)", it.read(), re.M).group(1))

    def peak(self):
        """The most bytes of memory that it had so far."""
        return self.told("status", "VmHWM")

    def reserved(self):
        """The bytes that it may write to."""
        return self.told("status", "VmData")

    def written(self):
        """Those of them that it has written to."""
        return self.told("smaps_rollup", "Anonymous")

    def mapped(self):
        """Those of them that lie apart from the heap and the stack, as the mappings that malloc asks for do."""
        with open(f"/proc/{self.process.pid}/maps", encoding="utf-8") as it:
            found = [re.match(r"(\w+)-(\w+) rw-p \S+ \S+ 0\s*$", line) for line in it]
        return sum(int(it.group(2), 16) - int(it.group(1), 16) for it in found if it)

    def control(self, *words):
        done = subprocess.run(["callgrind_control", *words, str(self.process.pid)], capture_output=True, text=True, check=False)
        if self.process.poll() is not None or "OK." not in done.stdout:
            raise Ended

    def begin(self):
        """From here on instructions are counted, where they are at all."""
        if self.timer:
            self.control("-i", "on")

    def so_far(self):
        """What the program took: the instructions since the last call where they are counted, else the processor's seconds."""
        return self.counted() if self.timer else self.seconds()

    def cost(self, work):
        """What the program takes while this is done."""
        begun = self.so_far()
        work()
        return self.so_far() if self.timer else self.so_far() - begun

    def at_end(self):
        """The instructions that are counted once the program has come to its end by itself."""
        self.process.wait()
        return self.in_files()

    def counted(self):
        """The instructions since the last call, or since they are counted."""
        self.control("--dump")
        return self.in_files()

    def in_files(self):
        """The instructions in what callgrind has written."""
        files = glob.glob(f"{self.folder}/count*")
        total = 0
        for file in files:
            with open(file, encoding="utf-8", errors="replace") as it:
                total += sum(int(n) for n in re.findall(r"^totals: (\d+)", it.read(), re.M))
            os.remove(file)
        return total


class Server(Running):
    """`wiki serve` with so many workers, at a port of its own."""

    def __init__(self, workers, *words, counts=None, from_start=False, settings=None):
        with socket.socket() as s:
            s.bind(("127.0.0.1", 0))
            self.port = s.getsockname()[1]
        words = ("serve", "--listen", f"127.0.0.1:{self.port}", "--workers", workers, *words)
        super().__init__("wiki", *words, counts=counts, from_start=from_start, settings=settings)
        self.process.stdout.readline()

    def connected(self):
        sock = socket.create_connection(("127.0.0.1", self.port))
        sock.setsockopt(socket.IPPROTO_TCP, socket.TCP_NODELAY, 1)
        return sock


def received(sock, wanted):
    """Waits for so many replies. Their bytes."""
    size, tail = 0, b""
    while wanted > 0:
        piece = sock.recv(1 << 20)
        if not piece:
            raise Ended
        checked(piece)
        size += len(piece)
        both = tail[-11:] + piece
        wanted -= both.count(b"HTTP/1.1 200")
        tail = both[-1_000_000:]
    return size + rest_of(sock, tail)


def rest_of(sock, tail):
    """Waits for what is left of the last reply, which begins in these bytes. How many bytes that was."""
    last, size = tail[tail.rindex(b"HTTP/1.1 200"):], 0
    while True:
        head, sep, body = last.partition(b"\r\n\r\n")
        if sep and len(body) == int(re.search(rb"Content-Length: (\d+)", head).group(1)):
            return size
        piece = sock.recv(1 << 20)
        if not piece:
            raise Ended
        size += len(piece)
        last += piece


def sent(sock, messages, pipelined=True):
    """Sends the messages, all at once or each behind the reply to the one before it. The bytes of the replies."""
    if not pipelined:
        return sum(received_one(sock, message) for message in messages)
    feeder = threading.Thread(target=sock.sendall, args=(b"".join(messages),))
    feeder.start()
    size = received(sock, len(messages))
    feeder.join()
    return size


def received_one(sock, message):
    sock.sendall(message)
    return received(sock, 1)


def compared(run, send, few, many):
    """What one of those takes that `many` is more than `few`, where `send(first, n)` sends n of them."""
    run.begin()
    less = run.cost(lambda: send(0, few))
    more = run.cost(lambda: send(few, many))
    return (more - less) / (many - few)


def lines_each(words, before, make, few, many, counts=None):
    """What a line takes of a program that these words begin, of those that `make(first, n)` gives: with these lines, at least
    one, sent and answered before."""
    try:
        with Running(*words, counts=counts) as run:
            run.ask(before)
            return compared(run, lambda first, n: run.ask(make(first, n)), few, many)
    except (Ended, FileNotFoundError):
        return None


def within(*functions):
    """What counts the instructions within these functions alone; one that is called by another of them is left out of it. Where
    a build has taken a function into its caller there is nothing of this name, and nothing is counted."""
    return [pattern for name in functions for pattern in (name, f"{name}::<*")]


def shown(value, form):
    """A number in this form, `-` where it isn't known."""
    return "-" if value is None else format(value, form)


def table(*columns):
    """Prints the head of a table, and gives what prints a row of it: a list of texts under names and widths."""
    print("\n" + " ".join(f"{name:>{width}}" for name, width in columns), flush=True)

    def row(*cells):
        print(" ".join(f"{cell:>{width}}" for cell, (_, width) in zip(cells, columns)), flush=True)

    return row
