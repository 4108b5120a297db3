"""What a request reads of the wiki: pages with their current revisions, older revisions, redirects. It notes at which points
of the wiki it has read."""
import dataclasses

from mediawiki.errors import WikiError, told
from mediawiki.titles import key_of
from moving import shown

BLANKS = " \t\n\r\f\v"
# How many texts are held at once, and how often the wiki is asked until no job is left.
TEXTS_AT_ONCE, STEPS = 16, 2000


@dataclasses.dataclass
class Revision:
    """A revision of a page. `text` is None where it wasn't read."""

    number: int
    parent: int
    moment: int
    size: int
    is_deletion: bool
    text: str | None = None


@dataclasses.dataclass
class Page:
    """A page that a request is about; `current` is None where it is missing."""

    title: tuple
    number: int = 0
    current: Revision | None = None

    @property
    def shown(self):
        return shown(*self.title)


def revision_of(it):
    return Revision(it["revid"], it["parentid"], it["timestamp"], it["size"], it.get("deleted", False), it.get("content"))


def asked_of(title, with_text=False, below=None, most=1):
    """The request for the revisions of a title below a number, the newest first."""
    asked = {"action": "query", "prop": "revisions", "titles": shown(*title), "rvlimit": most}
    if with_text:
        asked["rvprop"] = "content"
    if below is not None:
        asked["rvcontinue"] = below
    return asked


class Reader:
    """Asks the wiki for one request of a client."""

    def __init__(self, wiki, index):
        self.wiki, self.index = wiki, index
        self.points, self.has_followed = set(), False

    def noted(self, reply):
        self.points.add(reply["point"])
        return reply

    def ask(self, **parameters):
        return self.noted(self.wiki.ask(**parameters))

    def ask_all(self, many):
        """The replies to several requests, none of which may be an error."""
        found = self.replies(many)
        for it in found:
            if "error" in it:
                raise WikiError(it["error"])
        return found

    def replies(self, many):
        """The replies to several requests, also those that are errors."""
        return [self.noted(it) for it in self.wiki.ask_all(many)]

    def follow(self):
        """Has the index take what is new, once for a request."""
        if not self.has_followed:
            self.index.follow(self)
            self.has_followed = True

    def settle(self):
        """Lets the wiki do its jobs, a step of which it does behind each reply. Whether none is left."""
        for _ in range(STEPS):
            if not self.wiki.ask(action="query", meta="siteinfo")["query"]["statistics"]["jobs"]:
                return True
        return False

    # Pages

    def current(self, titles, with_text=False):
        """The pages of titles, in their order."""
        asked = [asked_of(it, with_text) for it in titles]
        return [self.page_of(title, reply) for title, reply in zip(titles, self.replies(asked) if asked else [])]

    def page_of(self, title, reply):
        if "error" in reply and reply["error"]["code"] != "missingtitle":
            raise told(WikiError(reply["error"]), shown(*title))
        found = [revision_of(it) for it in reply["query"]["revisions"]] if "query" in reply else []
        page = Page(title)
        if found and not found[0].is_deletion:
            page.current, page.number = found[0], self.index.number_of(self, title) or 0
        return page

    def title_of(self, number):
        return self.index.title_of(self, number)

    # Revisions

    def places_of(self, numbers):
        """The changes that made the revisions of these numbers, by the numbers; without those that aren't there."""
        asked = [{"action": "query", "list": "recentchanges", "rclimit": 1, "rccontinue": it + 1} for it in numbers if it > 0]
        found = [it for reply in self.ask_all(asked) for it in reply["query"]["recentchanges"]] if asked else []
        return {it["revid"]: it for it in found if it["revid"] in numbers}

    def place_of(self, number):
        """The change that made a revision, None where there is no such revision."""
        return self.places_of([number]).get(number)

    def revisions(self, title, below=None, most=500):
        """The revisions of a title below a number, the newest first, and the number below which they go on."""
        reply = self.ask(**asked_of(title, False, below, most))
        return [revision_of(it) for it in reply["query"]["revisions"]], reply.get("continue")

    def read(self, pairs, with_text=True):
        """Revisions, each of a title and a number."""
        asked = [asked_of(title, with_text, number + 1) for title, number in pairs]
        return [revision_of(it["query"]["revisions"][0]) for it in self.ask_all(asked)] if asked else []

    # Redirects

    def targets(self, pages):
        """Where the pages redirect to, by their numbers; each is a number and a title. What isn't known is read."""
        if pages:
            self.follow()
        known = {number: self.index.judged(number) for number, _ in pages}
        unknown = [it for it in pages if known[it[0]][0] != known[it[0]][1]]
        found = {number: (it[2], it[3]) if it[3] is not None else None for number, it in known.items()}
        for at in range(0, len(unknown), TEXTS_AT_ONCE):
            found.update(self.judged(unknown[at : at + TEXTS_AT_ONCE]))
        return found

    def judged(self, pages):
        """The same, from the texts as they are now."""
        read = self.current([title for _, title in pages], True)
        found = {number: None for number, _ in pages}
        likely = [(number, page) for (number, _), page in zip(pages, read) if page.current and page.current.text.lstrip(BLANKS)[:9].lower() == "#redirect"]
        parsed = dict(zip([number for number, _ in likely], self.replies([{"action": "parse", "page": page.shown} for _, page in likely]) if likely else []))
        for (number, _), page in zip(pages, read):
            it = parsed.get(number, {}).get("parse", {})
            target = key_of(it["redirect"]) if "redirect" in it else None
            revision = it.get("revid", page.current.number if page.current and number not in parsed else 0)
            found[number] = target
            if revision:
                self.index.judge(number, revision, target)
        return found
