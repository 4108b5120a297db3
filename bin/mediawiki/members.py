"""list=categorymembers. The wiki counts the members that it has told; here a list goes on behind the last one's sort key and
number. So it is read from its beginning, all of it at one point of the wiki."""
import itertools
import threading
import time

from mediawiki.errors import ApiError, WikiError, error, told
from mediawiki.linking import title_of
from mediawiki.listing import Listing, cut, given as given_to
from mediawiki.parameters import MOST, choice, choices, limit, moment, namespaces, number, refused, text
from mediawiki.titles import CATEGORY, FILE, entry, key_of, sort_key
from moving import shown

ORDER = "members have no moments here; they are sorted by their keys"
TABLE = {
    "title": text(), "pageid": number(), "prop": choices("ids", "title", "sortkey", "sortkeyprefix", "type", default="ids|title"),
    "namespace": namespaces(), "type": choices("page", "subcat", "file", default="page|subcat|file"), "continue": text(), "limit": limit(),
    "sort": choice("sortkey", "timestamp", default="sortkey"), "dir": choice("asc", "desc", "ascending", "descending", "newer", "older", default="ascending"),
    "start": moment(), "end": moment(), "starthexsortkey": text(), "endhexsortkey": text(), "startsortkeyprefix": text(), "endsortkeyprefix": text(),
    "startsortkey": refused("say cmstarthexsortkey or cmstartsortkeyprefix"), "endsortkey": refused("say cmendhexsortkey or cmendsortkeyprefix"),
}
# How often a category is read until it is of one point, and how many seconds longer is waited each time; how far ahead is read.
TRIES, PAUSE, AHEAD = 10, 0.02, 16
# How many lists and members are kept.
LISTS, MEMBERS = 4, 200000


class Member:
    """A member of a category."""

    __slots__ = ("number", "title", "prefix", "key", "kind")

    def __init__(self, it):
        self.number, self.title, self.prefix = it["pageid"], key_of(it), it["sortkeyprefix"]
        self.key = sort_key(self.prefix, self.title)
        self.kind = {CATEGORY: "subcat", FILE: "file"}.get(self.title[0], "page")


class Kept:
    """The lists that were read last, each with its time: how many connections were made so far and the point. As long as both are
    the same, nothing in them has changed."""

    def __init__(self):
        self.lock, self.lists = threading.Lock(), {}

    def get(self, title, when):
        with self.lock:
            it = self.lists.get(title)
            return it[1] if it and it[0] == when else None

    def put(self, title, when, found):
        with self.lock:
            self.lists.pop(title, None)
            self.lists[title] = when, found
            while len(self.lists) > LISTS or sum(len(it[1]) for it in self.lists.values()) > MEMBERS:
                del self.lists[next(iter(self.lists))]


def asked_of(title, at):
    return {"action": "query", "list": "categorymembers", "cmtitle": shown(*title), "cmlimit": MOST, **({"cmcontinue": at} if at else {})}


def whole(reader, title, kept):
    """All members of a category, all told at one point."""
    for tried in range(TRIES):
        replies = reader.wiki.ask_all([asked_of(title, 0)])
        if "error" in replies[0]:
            raise told(WikiError(replies[0]["error"]), shown(*title))
        point = replies[0]["point"]
        when = reader.wiki.made, point
        if found := kept.get(title, when):
            reader.noted(replies[0])
            return found
        while "continue" in replies[-1]:
            at = replies[-1]["continue"]
            replies += reader.wiki.ask_all([asked_of(title, at + step * MOST) for step in range(AHEAD)])
            replies = replies[: 1 + next((number for number, it in enumerate(replies) if "continue" not in it), len(replies))]
        if all(it["point"] == point for it in replies):
            found = [Member(it) for reply in replies for it in reply["query"]["categorymembers"]]
            reader.noted(replies[0])
            kept.put(title, when, found)
            return found
        reader.settle()
        time.sleep(PAUSE * tried)
    raise ApiError("internal_api_error_Changing", f"The wiki has changed each of the {TRIES} times that this category was read. Ask again.")


# What is told of them


def bound(given, side):
    """The sort key at which a list begins or ends."""
    if given[f"{side}hexsortkey"] is not None:
        try:
            return bytes.fromhex(given[f"{side}hexsortkey"])
        except ValueError:
            raise ApiError(f"badparam_cm{side}hexsortkey", f'"cm{side}hexsortkey" is no number in hexadecimal digits.') from None
    return given[f"{side}sortkeyprefix"].encode() if given[f"{side}sortkeyprefix"] is not None else None


def place(given):
    """The kind, the sort key and the number at which a list goes on."""
    if not given["continue"]:
        return None
    pieces = given["continue"].split("|")
    try:
        kind, key, page = pieces[0], bytes.fromhex(pieces[1]), int(pieces[2])
    except (ValueError, IndexError):
        raise error("badcontinue") from None
    if len(pieces) != 3 or kind not in given["type"]:
        raise error("badcontinue")
    return kind, key, page


def in_order(found, given):
    """The members that are told, kind by kind, from where the list goes on."""
    is_falling, start, begun = given["dir"] in ("desc", "descending", "older"), place(given), False
    first, last = bound(given, "start"), bound(given, "end")
    low, high = (last, first) if is_falling else (first, last)
    for kind in given["type"]:
        begun = begun or start is None or kind == start[0]
        fits = [it for it in found if it.kind == kind and begun and (given["namespace"] is None or it.title[0] in given["namespace"])]
        for it in sorted(fits, key=lambda it: (it.key, it.number), reverse=is_falling):
            at = (it.key, it.number)
            if start and kind == start[0] and (at > start[1:] if is_falling else at < start[1:]):
                continue
            if (low is None or it.key >= low) and (high is None or it.key <= high):
                yield it


def told_of(it, given):
    found = {"pageid": it.number} if "ids" in given["prop"] else {}
    found.update(entry(it.title) if "title" in given["prop"] else {})
    found.update({"sortkey": it.key.hex()} if "sortkey" in given["prop"] else {})
    found.update({"sortkeyprefix": it.prefix} if "sortkeyprefix" in given["prop"] else {})
    return {**found, **({"type": it.kind} if "type" in given["prop"] else {})}


def categorymembers(query, given, is_generator):
    if given["sort"] == "timestamp" or given["start"] is not None or given["end"] is not None:
        raise ApiError("unknown_cmsort", f'This wiki doesn\'t know "cmsort=timestamp", "cmstart" and "cmend": {ORDER}.')
    title = title_of(query, given, "cm")
    if title[0] != CATEGORY:
        raise error("invalidcategory")
    members = in_order(whole(query.reader, title, query.asked.server.members), given)
    found, more = cut(list(itertools.islice(members, given["limit"] + 1)), given["limit"], lambda it: f"{it.kind}|{it.key.hex()}|{it.number}")
    listing = Listing([told_of(it, given) for it in found], [it.title for it in found], more)
    return given_to(query, "categorymembers", listing, is_generator)
