"""list=allcategories. No list of the wiki has them: they are gathered once, from what each page says as it is parsed, and kept
with the titles; then from the pages that have changed since, and from those that use them.

That is enough: where a page's categories are others now, the first thing that its expansion reads otherwise than before is a title
that was changed meanwhile, and since all before it is as it was, the expansion reads that title now. So the page is among those
whose rows name it, which the wiki lists, exactly so where no job is left."""
import threading
import time

from mediawiki.errors import ApiError, WikiError
from mediawiki.linking import PREFIXES
from mediawiki.listing import Listing, cut, given as given_to
from mediawiki.lists import bounds
from mediawiki.pages import TEXTS_AT_ONCE, Reader
from mediawiki.parameters import MOST, choice, choices, limit, number, text
from mediawiki.shapes import Content
from mediawiki.titles import CATEGORY
from moving import shown

TABLE = {
    "from": text(), "to": text(), "prefix": text(), "continue": text(), "dir": choice("ascending", "descending", default="ascending"),
    "min": number(1), "max": number(1 << 60), "limit": limit(), "prop": choices("size", "hidden"),
}
# How long a request waits for the categories to be gathered.
SECONDS = 20


class Gatherer:
    """Gathers the categories, for one who asks after the other: each wants what was saved before it asked."""

    def __init__(self, wiki, index):
        self.wiki, self.index, self.busy = wiki, index, threading.Lock()
        self.done = self.all = 0

    def wait(self):
        """Gathers what is new, and waits for it for a while; an error says how far it is, and it goes on."""
        end, failed = time.monotonic() + SECONDS, []
        if self.busy.acquire(timeout=SECONDS):
            thread = threading.Thread(target=self.run, args=(failed,), daemon=True)
            thread.start()
            thread.join(max(0, end - time.monotonic()))
            if not thread.is_alive():
                if failed:
                    raise failed[0]
                return
        raise ApiError("internal_api_error_Gathering", f"The categories of all pages are still gathered: {self.done} pages of {self.all}. Ask again.")

    def run(self, failed):
        try:
            self.gather(Reader(self.wiki, self.index))
        except (ApiError, WikiError) as it:
            failed.append(it)
        finally:
            self.busy.release()

    def gather(self, reader):
        self.done = self.all = 0
        if not reader.settle():
            raise ApiError("internal_api_error_Gathering", "The wiki has jobs to do before its categories can be gathered. Ask again.")
        reader.follow()
        store, last, before = self.index.store, self.index.last(), self.index.last("gathered")
        pages = self.affected(reader, before)
        self.all = len(pages)
        for at in range(0, len(pages), TEXTS_AT_ONCE):
            self.index.put_members(store, members(reader, pages[at : at + TEXTS_AT_ONCE]))
            self.done = at
        self.index.gathered(store, last)

    def affected(self, reader, before):
        """The pages whose categories may be others than behind a revision, each with its number and its title."""
        changed = self.index.changed(before)
        found = {number: (namespace, key) for number, namespace, key, _ in changed}
        for _, namespace, key, is_turned in changed if before else ():
            # (pages that test whether another exists link to it)
            for name in ("embeddedin", "backlinks") if is_turned else ("embeddedin",):
                found.update(users(reader, name, (namespace, key)))
        return list(found.items())


def members(reader, pages):
    """The categories of pages, by the pages' numbers."""
    replies = reader.replies([{"action": "parse", "page": shown(*title)} for _, title in pages])
    rows = [it["parse"]["categories"] if "parse" in it else [] for it in replies]
    return {number: [it["category"].replace(" ", "_") for it in row] for (number, _), row in zip(pages, rows)}


def users(reader, name, title):
    """The pages that link to a title or include it, by their numbers."""
    above, prefix = None, PREFIXES[name]
    while True:
        more = {f"{prefix}continue": above} if above else {}
        reply = reader.ask(action="query", list=name, **{f"{prefix}title": shown(*title), f"{prefix}limit": MOST}, **more)
        yield from ((it["pageid"], reader.title_of(it["pageid"])) for it in reply["query"][name])
        above = reply.get("continue")
        if above is None:
            return


def told_of(given, row):
    key, count, categories, files = row
    found = {"category": Content(key.replace("_", " "))}
    if "size" in given["prop"]:
        found.update(size=count, pages=count - categories - files, files=files, subcats=categories)
    return {**found, **({"hidden": False} if "hidden" in given["prop"] else {})}


def allcategories(query, given, is_generator):
    low, high = bounds(given, CATEGORY)
    query.asked.server.gatherer.wait()
    rows = query.reader.index.categories(low, high, given["min"], given["max"], given["limit"] + 1, given["dir"] == "descending")
    rows, more = cut(rows, given["limit"], lambda it: it[0])
    return given_to(query, "allcategories", Listing([told_of(given, it) for it in rows], [(CATEGORY, it[0]) for it in rows], more), is_generator)
