"""What bin/import and bin/export share: titles and texts as the wiki keeps them (docs/rules/titles.md, docs/RULES.md), moments,
a store that is only read, and how far a program is. Each refusal has a status, which docs/MOVING.md lists."""
import calendar
import contextlib
import os
import re
import sqlite3
import sys
import time
import unicodedata
import urllib.request

NAMESPACES = {
    -2: "Media", -1: "Special", 0: "", 1: "Talk", 2: "User", 3: "User talk", 4: "Project", 5: "Project talk", 6: "File", 7: "File talk",
    8: "MediaWiki", 9: "MediaWiki talk", 10: "Template", 11: "Template talk", 12: "Help", 13: "Help talk", 14: "Category", 15: "Category talk",
}
NUMBERS = {name.replace(" ", "_").lower(): number for number, name in NAMESPACES.items() if name} | {"image": 6, "image_talk": 7}
SMALL = str.maketrans("ABCDEFGHIJKLMNOPQRSTUVWXYZ", "abcdefghijklmnopqrstuvwxyz")
UNSEEN = dict.fromkeys([0x200E, 0x200F, *range(0x202A, 0x202F)])
ILLEGAL = re.compile(r"[<>\[\]|{}\x00-\x1f\x7f\ufffd]|~~~|%[0-9A-Fa-f]{2}|&[0-9A-Za-z#]+;")
KEY_BYTES, TEXT_BYTES = 255, 2097152
# How much a wiki holds at the most.
LIMITS = {"pages": 1000000, "revisions": 16777216, "bytes of text": 1073741824}
BLANKS = " \t\n\r"
TERMINAL_SECONDS, PLAIN_SECONDS = 0.2, 10


class Refused(Exception):
    """Why a program ends before its work is done, with its status."""

    def __init__(self, status, why):
        super().__init__(why)
        self.status, self.why = status, why


# Titles and texts


def nfc(text):
    return text if text.isascii() else unicodedata.normalize("NFC", text)


def normal(text, default=0):
    """The namespace's number and the key that a text names, or why it names none."""
    text = nfc(text.partition("#")[0].translate(UNSEEN))
    text = re.sub("[ _]+", "_", text).strip("_")
    number = default
    if text.startswith(":"):
        number, text = 0, text[1:].lstrip("_")
    before, colon, rest = text.partition(":")
    named = NUMBERS.get(before.rstrip("_").translate(SMALL)) if colon else None
    if named is not None:
        number, text = named, rest.lstrip("_")
    if text[:1].isascii():
        text = text[:1].upper() + text[1:]
    return legal(number, nfc(text))


def legal(number, key):
    """The title, or why its key is illegal."""
    if not key:
        return "the title is empty"
    if len(key.encode()) > KEY_BYTES:
        return f"the title has {len(key.encode())} bytes, and {KEY_BYTES} at the most can be kept"
    if found := ILLEGAL.search(key):
        return f"the title holds {found[0]!r}"
    if key.startswith(":") or {".", ".."} & set(key.split("/")):
        return "the title begins with a colon, or has a part '.' or '..'"
    return number, key


def shown(number, key):
    """How a title is shown."""
    name = NAMESPACES[number]
    return (f"{name}:" if name else "") + key.replace("_", " ")


def kept(text):
    """What a wiki keeps of a text."""
    return nfc(text.replace("\r\n", "\n").replace("\r", "\n")).rstrip(BLANKS)


# Moments

MOMENT = re.compile(r"(\d{4})-(\d\d)-(\d\d)T(\d\d):(\d\d):(\d\d)Z")


def seconds_of(text):
    """The seconds since 1970 of a moment in ISO form, None where it is none."""
    found = MOMENT.fullmatch(text)
    try:
        return calendar.timegm(time.strptime(text, "%Y-%m-%dT%H:%M:%SZ")) if found else None
    except ValueError:
        return None


def iso_of(seconds):
    """A moment in ISO form, of a year from 1970 to 9999."""
    return time.strftime("%Y-%m-%dT%H:%M:%SZ", time.gmtime(min(max(seconds, 0), 253402300799)))


# A store that is only read


@contextlib.contextmanager
def reading(name):
    """The tables of a store that no process has open. Neither NAME nor NAME-wal is written."""
    if not os.path.isfile(name):
        raise Refused(5, f"{name}: there is no such store")
    had = os.path.exists(f"{name}-shm"), os.path.exists(f"{name}-wal")
    address = "file:" + urllib.request.pathname2url(os.path.abspath(name))
    database = sqlite3.connect(f"{address}?mode=ro", uri=True, timeout=0, isolation_level=None)
    try:
        # (one transaction, so that no process can change it meanwhile)
        database.execute("BEGIN")
        found = database.execute("SELECT site_value FROM site WHERE site_key = 'version'").fetchone()
        if found not in (("1",), ("2",)):
            raise Refused(5, f"{name}: the store has the version {found and found[0]}, and this program knows 1 and 2")
        yield database
    except sqlite3.Error as error:
        raise Refused(5, f"{name}: {what_sqlite_says(error)}") from error
    finally:
        database.close()
        for end, stood in zip(("-shm", "-wal"), had):
            if not stood and os.path.exists(name + end) and (end == "-shm" or not os.path.getsize(name + end)):
                os.remove(name + end)


def what_sqlite_says(error):
    said = str(error)
    if "locked" in said:
        return "the store is in use"
    return "the file isn't a wiki's store" if "no such table" in said or "not a database" in said else said


def held(database):
    """How much a store holds: pages, revisions and bytes of text."""
    pages, = database.execute("SELECT count(*) FROM page").fetchone()
    revisions, size = database.execute("SELECT count(*), coalesce(sum(rev_len), 0) FROM revision").fetchone()
    return [pages, revisions, size]


# How far a program is


def in_hours(seconds):
    return f"{int(seconds) // 3600}:{int(seconds) // 60 % 60:02}:{int(seconds) % 60:02}"


class Progress:
    """Tells on standard error how far a program is: in a line that is written over on a terminal, else in one every ten seconds.
    What else is told stands in lines of its own."""

    def __init__(self, program, total):
        self.program, self.total = program, total
        self.is_terminal = sys.stderr.isatty()
        self.began = self.last = time.monotonic()
        self.is_open = False

    def at(self, pages, done):
        """So many pages are done, and so many of the total."""
        now = time.monotonic()
        if now - self.last < (TERMINAL_SECONDS if self.is_terminal else PLAIN_SECONDS):
            return
        self.last, took = now, now - self.began
        line = f"{self.program}: {pages} pages, {done / 1e6:.1f}"
        line += f" of {self.total / 1e6:.1f} MB" if self.total else " MB"
        line += f", {pages / took:.0f} pages a second"
        if self.total and done:
            line += f", {in_hours(max(self.total - done, 0) * took / done)} left"
        self.write(f"\r{line}\x1b[K" if self.is_terminal else f"{line}\n")
        self.is_open = self.is_terminal

    def tell(self, text):
        """A line that stays."""
        self.write(("\r\x1b[K" if self.is_open else "") + f"{self.program}: {text}\n")
        self.is_open = False

    def write(self, text):
        sys.stderr.write(text)
        sys.stderr.flush()


def show(title):
    """A title in a line that is told: what isn't printed is escaped, and it isn't longer than a line."""
    text = "".join(it if it.isprintable() else repr(it)[1:-1] for it in title)
    return text if len(text) <= 300 else f"{text[:300]}.."
