"""The families over `wiki serve` and `wiki jobs`: requests on connections over the loopback, many at once, and drains by many
workers. The clients are threads of this script: they send all their messages without waiting, and look at no reply.

Where a wiki of generated pages is drained it stands in a file, in BENCH_FOLDER or the memory's file system: each refresh is a
commit there."""

import os
import shutil
import subprocess
import tempfile
import threading
import time

from made import INFOBOX, NOTE, edit, edit_body, get, new_store, post
from measure import Ended, Running, Server, compared, program, sent, shown, table

PAGES = 1000
FIRST = 1_000_000
FOLDER = os.environ.get("BENCH_FOLDER", "/dev/shm")
# Tenths of the rounds that the tables have, for a first look.
SHARE = float(os.environ.get("BENCH_SHARE", "1"))


def message(kind, number):
    """The message with this number: what a page expands to, what a text does, or an edit to a text that no other one has. Those
    of a kind have all the same length."""
    page, words = FIRST + number % PAGES, FIRST + number
    if kind == "parse":
        return get(f"action=parse&page=P{page}")
    if kind == "expand":
        return get("action=expandtemplates&text=%7B%7BT%7C" + f"{words}%7D%7D")
    return post(edit_body(f"P{page}", "{{T|%d}} [[P%d]]" % (words, page)))


def settled(sock):
    """Asks until no job is left: a step of a job is done behind each reply."""
    ask = get("action=query&meta=siteinfo")
    for _ in range(100):
        sent(sock, [ask] * 500)
        sock.sendall(ask)
        if b'"jobs":0' in sock.recv(1 << 20):
            return


def make_pages(sock):
    sent(sock, [post(edit_body("Template:T", "<b>{{{1}}}</b>"))] + [message("edit", n) for n in range(PAGES)])
    settled(sock)


def session_each(kind, pipelined, few, many):
    """What a message of this kind takes of the server, in seconds, and the bytes of its reply."""
    with Server(1) as run, run.connected() as sock:
        make_pages(sock)
        sizes = []

        def send(first, count):
            sizes.append(sent(sock, [message(kind, PAGES + first + n) for n in range(count)], pipelined))

        return compared(run, send, few, many), sizes[1] / many


def session_counted(kind, pipelined, few, many):
    """The same in instructions, by two servers: one that waits for a socket can't be asked for its count, so it is told at the
    end of its only connection."""
    counts = []
    try:
        for count in (few, many):
            with Server(1, "--max-connections", 1, counts=(), from_start=True) as run:
                with run.connected() as sock:
                    make_pages(sock)
                    sent(sock, [message(kind, PAGES + n) for n in range(count)], pipelined)
                counts.append(run.at_end())
    except (Ended, FileNotFoundError, OSError):
        return None
    return (counts[1] - counts[0]) / (many - few)


def session():
    """A connection to a wiki of 1,000 pages that include a template and are refreshed: GETs of parse and expandtemplates, POSTs
    of edits that change a page, all at once or each behind the reply to the one before it, with the step behind each reply. The
    seconds are the processor's, the system's part with them; the instructions are the program's own."""
    row = table(("session", 8), ("way", 10), ("us/message", 12), ("messages/s", 12), ("bytes/reply", 12), ("instructions/message", 20))
    many = int(30_000 * SHARE)
    for kind in ("parse", "expand", "edit"):
        for pipelined in (True, False):
            seconds, size = session_each(kind, pipelined, many // 10, many)
            counted = session_counted(kind, pipelined, 10, 510)
            row(
                kind, "pipelined" if pipelined else "single", shown(None if seconds is None else 1e6 * seconds, ".3f"),
                shown(None if not seconds else 1 / seconds, ".0f"), shown(size, ".1f"), shown(counted, ".0f"),
            )


def by_threads(works):
    """Does the works at once, each on a thread. The seconds by the clock."""
    threads = [threading.Thread(target=it) for it in works]
    begun = time.perf_counter()
    for it in threads:
        it.start()
    for it in threads:
        it.join()
    return time.perf_counter() - begun


def client(run, make, count, piece=500):
    """What sends so many messages on a connection of its own, some at a time."""
    sock = run.connected()

    def work():
        for first in range(0, count, piece):
            sent(sock, [make(n) for n in range(first, min(count, first + piece))])
        sock.close()

    return work


def requests_a_second(run, makes, few, many, until=None):
    """The requests a second of so many clients, by the difference of few requests of each and many. `until` is a work that goes
    on beside them until it is told to stop."""
    spent = []
    for count in (few, many):
        stop = threading.Event()
        beside = threading.Thread(target=until, args=(stop,)) if until else None
        if beside:
            beside.start()
        spent.append(by_threads([client(run, make, count) for make in makes]))
        stop.set()
        if beside:
            beside.join()
    return len(makes) * (many - few) / (spent[1] - spent[0]) if spent[1] > spent[0] else None


def shared():
    """Saves of many connections, each on a page of its own, and requests for the current revision with its text, so many behind
    each save: both are made under the turn."""
    row = table(("threads", 8), ("reads/save", 10), ("requests/s", 14), ("processor us", 13))
    for reads in (1, 100):
        for threads in (1, 2, 4, 8):
            with Server(threads) as run:

                def maker(thread):
                    def make(number):
                        if number % (1 + reads):
                            return get(f"action=query&prop=revisions&titles=P{thread}&rvlimit=1&rvprop=content")
                        return post(edit_body(f"P{thread}", f"{thread} {number}"))

                    return make

                begun, few, many = run.seconds(), int(1010 * SHARE), int(40_400 * SHARE) // threads
                rate = requests_a_second(run, [maker(thread) for thread in range(threads)], few, many)
                spent = (run.seconds() - begun) / (threads * (few + many))
                row(threads, reads, shown(rate, ".0f"), f"{1e6 * spent:.1f}")


KINDS = {"hit": 1, "same": 1, "check": 17, "draft": 300}


def reads_of(row, kind, threads, writer):
    """Requests that parse pages, on so many connections, with edits of another page beside them or without."""
    each = KINDS[kind]
    with Server(threads + 1) as run:
        with run.connected() as sock:
            pages = range(1 if kind == "same" else threads * each)
            sent(sock, [post(edit_body("Template:Infobox", INFOBOX)), post(edit_body("Template:Note", NOTE))])
            text = "{{Infobox|name=x|f1=v1|f4=v40|f11=v99}} [[Page 2]] {{Note|5}}[[Category:C3]]"
            sent(sock, [post(edit_body(f"Page {page}", text)) for page in pages])
            settled(sock)

        def maker(thread):
            before = 0 if kind == "same" else thread * each
            return lambda number: get(f"action=parse&page=Page+{before + number % each}")

        def saves(stop):
            with run.connected() as sock:
                number = 0
                while not stop.is_set():
                    sent(sock, [post(edit_body("Other", f"text {number + n}")) for n in range(20)])
                    number += 20

        makes = [maker(thread) for thread in range(threads)]
        rate = requests_a_second(run, makes, int(500 * SHARE), int(10_500 * SHARE), saves if writer else None)
        row(kind, threads, "writer" if writer else "-", shown(rate, ".0f"))


def reads():
    """Requests that parse a page, each connection with pages of its own: one page again and again (16 of 17 are served from what
    the reader keeps, and the other is checked), one page for all, 17 pages in turn (each is checked), and 300 (each is
    drafted). What HTTP and the reply take is in it, and most of a page that is kept."""
    row = table(("reads", 8), ("threads", 8), ("beside", 8), ("requests/s", 14))
    for kind in KINDS:
        for writer in (False, True):
            for threads in (1, 2, 4):
                reads_of(row, kind, threads, writer)


BOX = " {{Infobox|name=x|f1=a|f2=b|f3=c|f4=d|f5=e|f6=f|f7=g|f8=h|f9=i|f10=j|f11=k}}"


def told(name, lines):
    with Running("wiki", "script", "--store", name) as run:
        run.ask(lines)
        run.end()


def drain(name, workers):
    """The seconds by the clock that the jobs of the store take with so many workers, the opening with them."""
    begun = time.perf_counter()
    subprocess.run([program("wiki"), "jobs", "--store", name, "--procs", str(workers)], check=True, stdout=subprocess.DEVNULL)
    return time.perf_counter() - begun


def drained_by(row, kind, pages, name):
    """Rows for drains of copies of the store, which has its jobs, by 1, 2 and 4 workers. What opening takes, by a store whose
    jobs are done, is taken away."""
    alone = None
    for workers in (1, 2, 4):
        copy = f"{name}-{workers}"
        shutil.copy(name, copy)
        spent = drain(copy, workers) - drain(copy, workers)
        alone = alone or spent
        row(kind, pages, workers, f"{1e3 * spent:.1f}", f"{1e6 * spent / pages:.1f}", f"{spent / alone:.2f}")


def drains():
    """A template that all pages include is changed, and the pages are refreshed: generated pages, and pages whose draft takes a
    millisecond or more; and pages that were never refreshed before."""
    row = table(("drains", 8), ("pages", 8), ("workers", 8), ("ms", 12), ("us/page", 12), ("ratio", 8))
    folder = tempfile.mkdtemp(prefix="bench-", dir=FOLDER)
    light, heavy, first = (os.path.join(folder, it) for it in ("light", "heavy", "first"))
    templates = [edit("Template:Infobox", INFOBOX), edit("Template:Note", NOTE)]
    try:
        pages = int(1000 * SHARE)
        subprocess.run([program("wiki"), "gen", "--store", light, "--pages", str(pages)], check=True, stdout=subprocess.DEVNULL)
        told(light, [edit("Template:Note", NOTE + "1")])
        drained_by(row, "light", pages, light)
        new_store(heavy).close()
        told(heavy, templates + [edit(f"Heavy {n}", "%d {{Note|1}}" % n + BOX * 100) for n in range(pages)])
        drain(heavy, 1)
        told(heavy, [edit("Template:Note", NOTE + "1")])
        drained_by(row, "heavy", pages, heavy)
        new_store(first).close()
        text = "{{Infobox|name=x|f1=v1|f4=v40|f11=v99}} [[Page 2]] {{Note|5}}[[Category:C3]]"
        told(first, templates + [edit(f"Page {n}", text) for n in range(20 * pages)])
        drained_by(row, "first", 20 * pages, first)
    finally:
        shutil.rmtree(folder)


FAMILIES = {"shared": shared, "session": session, "reads": reads, "drains": drains}
