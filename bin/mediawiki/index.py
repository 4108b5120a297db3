"""The titles, the numbers and the last revisions of all pages, which no list of the wiki has: they are had by following the
recent changes once from their end, and then what is new. A file keeps them, so that the next start asks for what is new alone;
it is thrown away where it is of another store."""
import os
import sqlite3
import threading

from mediawiki.titles import key_of

AT_ONCE = 500
# What SQLite writes into the head of a file to say whose it is, and where.
OURS, HEAD, PLACE = 0x4B4D5741, 100, slice(68, 72)
# How many parts of the changes are read in one go, and what stands for no revision.
PARTS, NOTHING = 16, (0, None, None)
TABLES = """
CREATE TABLE IF NOT EXISTS page (id INTEGER PRIMARY KEY, ns INTEGER NOT NULL, key TEXT NOT NULL, revision INTEGER NOT NULL,
    is_there INTEGER NOT NULL, turned INTEGER NOT NULL, judged INTEGER NOT NULL DEFAULT 0, target_ns INTEGER, target TEXT);
CREATE UNIQUE INDEX IF NOT EXISTS title ON page (ns, key);
CREATE TABLE IF NOT EXISTS seen (name TEXT PRIMARY KEY, revision INTEGER, moment INTEGER, title TEXT) WITHOUT ROWID;
CREATE TABLE IF NOT EXISTS member (category TEXT NOT NULL, page INTEGER NOT NULL, PRIMARY KEY (category, page)) WITHOUT ROWID;
CREATE INDEX IF NOT EXISTS member_page ON member (page);
"""
# (`turned` is the revision by which a page was made or deleted last; the newest changes may come first or last)
PUT = """
INSERT INTO page (id, ns, key, revision, is_there, turned) VALUES (?, ?, ?, ?, ?, ?) ON CONFLICT (id) DO UPDATE SET
    revision = max(page.revision, excluded.revision), turned = max(page.turned, excluded.turned),
    is_there = CASE WHEN excluded.revision > page.revision THEN excluded.is_there ELSE page.is_there END
"""


def is_ours(path):
    """Whether a file is one of these or a new one: no other is written over."""
    try:
        with open(path, "rb") as it:
            head = it.read(HEAD)
    except FileNotFoundError:
        return True
    return not head or head[PLACE] == OURS.to_bytes(4, "big")


def opened(path):
    """The tables of a file, or of memory; an error of SQLite's where another process has it, or where it is broken."""
    database = sqlite3.connect(path or ":memory:", timeout=0, isolation_level=None, check_same_thread=False)
    database.execute(f"PRAGMA application_id = {OURS}")
    database.executescript(TABLES)
    database.execute("PRAGMA locking_mode = EXCLUSIVE")
    database.execute("PRAGMA journal_mode = WAL")
    database.execute("PRAGMA synchronous = OFF")
    if database.execute("PRAGMA quick_check(1)").fetchone() != ("ok",):
        raise sqlite3.DatabaseError("the file is broken")
    return database


class Index:
    """The pages, as far as they were followed."""

    def __init__(self, path=None):
        self.path, self.lock, self.database = path, threading.RLock(), None
        # How often it was begun anew, and how many connections were made when the wiki was looked at last: behind a new one it may have another store.
        self.store, self.made = 0, None
        if path and not is_ours(path):
            raise sqlite3.DatabaseError("the file is another program's; name a new one")
        try:
            self.database = opened(path)
        except sqlite3.DatabaseError as it:
            if path is None or "locked" in str(it):
                raise
            self.begin_anew()

    def begin_anew(self):
        """Throws away what is known."""
        if self.database:
            self.database.close()
        for end in ("", "-wal", "-shm"):
            if self.path and os.path.exists(self.path + end):
                os.remove(self.path + end)
        self.database, self.store = opened(self.path), self.store + 1

    def rows(self, asked, *values):
        with self.lock:
            return self.database.execute(asked, values).fetchall()

    def row(self, asked, *values):
        found = self.rows(asked, *values)
        return found[0] if found else None

    # What is new

    def follow(self, reader):
        """Takes what the wiki has changed since the last time."""
        with self.lock:
            newest = changes(reader, None, 1)
            self.made = reader.wiki.made
            last = self.row("SELECT revision, moment, title FROM seen WHERE name = 'last'") or NOTHING
            now = mark(newest[0]) if newest else NOTHING
            if now == last:
                return
            if now[0] <= last[0] or not self.is_same_store(reader, last):
                self.begin_anew()
                last = NOTHING
            if newest:
                self.take(reader, newest[0], last[0])

    def is_same_store(self, reader, last):
        """Whether the first revision and the last one that was seen are still the wiki's."""
        first = self.row("SELECT revision, moment, title FROM seen WHERE name = 'first'")
        marks = [it for it in (first, last) if it and it[0]]
        asked = [{"action": "query", "list": "recentchanges", "rclimit": 1, "rccontinue": it[0] + 1} for it in marks]
        return all(mark(reply["query"]["recentchanges"][0]) == it for reply, it in zip(reader.ask_all(asked), marks))

    def take(self, reader, newest, last):
        """Takes the changes from the newest one down to the last one that was seen, which isn't taken."""
        starts = range(newest["revid"], last, -AT_ONCE)
        self.database.execute("BEGIN")
        try:
            for at in range(0, len(starts), PARTS):
                asked = [{"action": "query", "list": "recentchanges", "rclimit": min(AT_ONCE, start - last), "rccontinue": start + 1} for start in starts[at : at + PARTS]]
                for reply in reader.ask_all(asked):
                    found = reply["query"]["recentchanges"]
                    self.database.executemany(PUT, map(row_of, found))
                    oldest = found[-1]
            self.database.execute("INSERT OR REPLACE INTO seen VALUES ('last', ?, ?, ?)", mark(newest))
            if not last:
                self.database.execute("INSERT OR REPLACE INTO seen VALUES ('first', ?, ?, ?)", mark(oldest))
            self.database.execute("COMMIT")
        except BaseException:
            self.database.execute("ROLLBACK")
            raise

    # What is known

    def number_of(self, reader, title):
        """The number of a title's page, None where it never had one."""
        found = self.looked_up(reader, "SELECT id FROM page WHERE ns = ? AND key = ?", *title)
        return found[0] if found else None

    def title_of(self, reader, number):
        """The title of a page's number, None where there is none."""
        return self.looked_up(reader, "SELECT ns, key FROM page WHERE id = ?", number)

    def looked_up(self, reader, asked, *values):
        """A row, behind what is new where it isn't known yet."""
        if self.made != reader.wiki.made:
            self.follow(reader)
        found = self.row(asked, *values)
        if found is None:
            self.follow(reader)
        return found or self.row(asked, *values)

    def there(self, reader, numbers):
        """Which of these pages exist."""
        if numbers:
            reader.follow()
        marks = ",".join("?" * len(numbers))
        return {it for it, in self.rows(f"SELECT id FROM page WHERE is_there AND id IN ({marks})", *numbers)}

    def listed(self, namespace, low, high, most, is_falling):
        """Pages that exist, whose keys are from one to another, each with its number, its namespace and its key."""
        order = "DESC" if is_falling else "ASC"
        return self.rows(f"SELECT id, ns, key FROM page WHERE ns = ? AND is_there AND key >= ? AND key <= ? ORDER BY key {order} LIMIT ?", namespace, low, high, most)

    # Categories, which mediawiki/categories.py gathers

    def last(self, name="last"):
        """The number of the last revision that was seen, or that was when the categories were gathered."""
        found = self.row("SELECT revision FROM seen WHERE name = ?", name)
        return found[0] if found else 0

    def changed(self, revision):
        """The pages that were changed behind a revision: each with its number, its title, and whether it was made or deleted."""
        return self.rows("SELECT id, ns, key, turned > ? FROM page WHERE revision > ? ORDER BY id", revision, revision)

    def put_members(self, store, pages):
        """Keeps the categories of pages, by the pages' numbers, where they are still of this store."""
        with self.lock:
            if store != self.store:
                return
            self.database.execute("BEGIN")
            self.database.executemany("DELETE FROM member WHERE page = ?", [(it,) for it in pages])
            self.database.executemany("INSERT OR IGNORE INTO member VALUES (?, ?)", [(key, it) for it, keys in pages.items() for key in keys])
            self.database.execute("COMMIT")

    def gathered(self, store, revision):
        """Notes that the categories of all pages are those behind a revision, where they are still of this store."""
        with self.lock:
            if store == self.store:
                self.rows("INSERT OR REPLACE INTO seen VALUES ('gathered', ?, NULL, NULL)", revision)

    def categories(self, low, high, least, greatest, most, is_falling):
        """Categories whose keys are from one to another, each with how many pages, categories and files are in it."""
        order = "DESC" if is_falling else "ASC"
        asked = f"""SELECT category, count(*), sum(ns = 14), sum(ns = 6) FROM member JOIN page ON id = page WHERE is_there AND category >= ? AND category <= ?
            GROUP BY category HAVING count(*) >= ? AND count(*) <= ? ORDER BY category {order} LIMIT ?"""
        return self.rows(asked, low, high, least, greatest, most)

    # Redirects, which are known once the text of a revision was looked at

    def judged(self, number):
        """The last revision of a page, the one that was judged, and where that redirects to."""
        return self.row("SELECT revision, judged, target_ns, target FROM page WHERE id = ?", number) or (0, -1, None, None)

    def judge(self, number, revision, target):
        with self.lock:
            self.database.execute("UPDATE page SET judged = ?, target_ns = ?, target = ? WHERE id = ?", (revision, *(target or (None, None)), number))


def row_of(it):
    """What a change says of its page."""
    return it["pageid"], *key_of(it), it["revid"], it["type"] != "delete", it["revid"] if it["type"] != "edit" else 0


def changes(reader, below, most):
    """The newest changes below a number."""
    more = {} if below is None else {"rccontinue": below}
    return reader.ask(action="query", list="recentchanges", rclimit=most, **more)["query"]["recentchanges"]


def mark(change):
    """How a revision is known again."""
    return change["revid"], change["timestamp"], change["title"]
