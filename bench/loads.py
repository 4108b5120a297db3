"""Clients that ask a server for some seconds, each the next thing behind the reply to the last one, over connections that are kept:
by wrk, of Debian's packages, and where it isn't there by a process of Python, which asks less often."""

import multiprocessing
import re
import select
import shutil
import socket
import subprocess
import tempfile
import time

# Sends what stands in a file, each behind a zero, one after the other, and begins again.
IN_TURN = """
local requests, at = {}, 0
function init(args)
  for it in io.open(args[1], "rb"):read("*a"):gmatch("[^%z]+") do requests[#requests + 1] = it end
end
function request()
  at = at % #requests + 1
  return requests[at]
end
"""
MILLISECONDS = {"us": 0.001, "ms": 1, "s": 1000, "m": 60_000}


class Wrk:
    """wrk, with these requests in turn. `end` gives how many were answered in a second, and how many milliseconds the median and the
    slowest hundredth took."""

    def __init__(self, port, requests, clients, seconds):
        self.folder = tempfile.TemporaryDirectory(prefix="bench-")
        script, file = f"{self.folder.name}/in_turn.lua", f"{self.folder.name}/requests"
        with open(script, "w", encoding="utf-8") as it:
            it.write(IN_TURN)
        with open(file, "wb") as it:
            it.write(b"\0".join(requests))
        words = ["wrk", "-t1", f"-c{clients}", f"-d{seconds:.0f}s", "--latency", "--timeout", "60s", "-s", script, f"http://127.0.0.1:{port}", "--", file]
        self.process = subprocess.Popen(words, stdout=subprocess.PIPE, encoding="utf-8")

    def end(self):
        told = self.process.communicate()[0]
        self.folder.cleanup()
        if trouble := re.search(r"Non-2xx.*|Socket errors.*", told):
            print(f"wrk: {trouble[0].strip()}", flush=True)
        each = (re.search(rf"{part}%\s+([\d.]+)(us|ms|s|m)\b", told) for part in (50, 99))
        rate = float(re.search(r"Requests/sec:\s+([\d.]+)", told)[1])
        return rate, *(float(it[1]) * MILLISECONDS[it[2]] for it in each)


class Asks:
    """The same by a process of Python."""

    def __init__(self, port, requests, clients, seconds):
        self.told, tells = multiprocessing.Pipe(duplex=False)
        self.process = multiprocessing.get_context("fork").Process(target=ask, args=(port, requests, clients, seconds, tells))
        self.process.start()

    def end(self):
        found = self.told.recv()
        self.process.join()
        return found


def ask(port, requests, clients, seconds, tells):
    """Asks by one thread, and tells what `end` gives."""
    links, poll, took, number = {}, select.epoll(), [], 0
    for number in range(clients):
        sock = socket.create_connection(("127.0.0.1", port))
        sock.setsockopt(socket.IPPROTO_TCP, socket.TCP_NODELAY, 1)
        links[sock.fileno()] = [sock, b"", time.perf_counter()]
        poll.register(sock.fileno(), select.EPOLLIN)
        sock.sendall(requests[number % len(requests)])
    begun = time.perf_counter()
    while time.perf_counter() - begun < seconds:
        for file, _ in poll.poll(1):
            link = links[file]
            more = link[0].recv(1 << 16)
            if not more:
                raise SystemExit("bench: the server closed a connection")
            link[1] += more
            if is_whole(link[1]):
                took.append(time.perf_counter() - link[2])
                number += 1
                link[1:] = b"", time.perf_counter()
                link[0].sendall(requests[number % len(requests)])
    lasted = time.perf_counter() - begun
    took.sort()
    tells.send((len(took) / lasted, *(1000 * took[len(took) * part // 100] if took else 0.0 for part in (50, 99))))


def is_whole(reply):
    """Whether all of a reply has come."""
    head, sep, body = reply.partition(b"\r\n\r\n")
    return bool(sep) and len(body) >= int(re.search(rb"Content-Length: (\d+)", head)[1])


def load(*words):
    """These clients, which have begun."""
    return (Wrk if shutil.which("wrk") else Asks)(*words)
