"""prop=revisions: the current revision of each page, the revisions that were named, or those of one page in their order."""
import collections
import hashlib

from mediawiki.errors import ApiError, error
from mediawiki.listing import last_number
from mediawiki.pages import TEXTS_AT_ONCE
from mediawiki.parameters import MOST, Parameter, choice, choices, moment, number, number_of, refused, text
from mediawiki.shapes import Content
from moving import iso_of

# Who is told to have made each change, as bin/export does: nobody has a name here.
NOBODY = "127.0.0.1"
MODEL, FORMAT = "wikitext", "text/x-wiki"
# A number that no revision has.
ABOVE = 1 << 62
# How many bytes of texts a reply has, behind which it goes on in another one.
BYTES = 8 << 20

OLD = "the parameter is one of those that MediaWiki gives up, and this wiki never had"


def limit_of(asked, name, given, it):
    return "max" if given == "max" else number_of(given, name)


TABLE = {
    "prop": choices(
        "ids", "flags", "timestamp", "user", "userid", "size", "slotsize", "sha1", "slotsha1", "contentmodel", "comment", "parsedcomment", "content",
        "tags", "roles", default="ids|timestamp|flags|comment|user"
    ),
    "slots": choices("main", default=None), "limit": Parameter(limit_of), "startid": number(), "endid": number(), "start": moment(), "end": moment(),
    "dir": choice("newer", "older", default="older"), "user": text(), "excludeuser": text(), "tag": refused("changes have no tags"),
    "continue": text(), "section": refused("pages aren't cut into sections"), "expandtemplates": refused("action=expandtemplates does this"),
    **{it: refused(OLD) for it in ("generatexml", "parse", "diffto", "difftotext", "difftotextpst")}, "contentformat": choice(FORMAT),
}
WITH_TEXT = {"content", "sha1", "slotsha1"}
SLOTS = {"content", "contentmodel", "slotsize", "slotsha1"}
LISTED = ("limit", "startid", "endid", "start", "end", "user", "excludeuser")
OLD_FORM = 'Because "rvslots" was not specified, a legacy format has been used for the output. This format is deprecated, and in the future the new format will always be used.'
NAMES = '"rvlimit", "rvstartid", "rvendid", "rvdir=newer", "rvuser", "rvexcludeuser", "rvstart", and "rvend"'


def sha1(it):
    return hashlib.sha1(it.text.encode()).hexdigest()


# What each of `rvprop` tells of a revision.
TOLD = {
    "ids": lambda it: {"revid": it.number, "parentid": it.parent}, "flags": lambda it: {"minor": False},
    "user": lambda it: {"user": NOBODY, "anon": True}, "userid": lambda it: {"userid": 0, "anon": True}, "timestamp": lambda it: {"timestamp": iso_of(it.moment)},
    "size": lambda it: {"size": it.size}, "sha1": lambda it: {"sha1": sha1(it)}, "roles": lambda it: {"roles": ["main"]},
    "comment": lambda it: {"comment": ""}, "parsedcomment": lambda it: {"parsedcomment": ""}, "tags": lambda it: {"tags": []},
}
IN_SLOT = {
    "slotsize": lambda it: {"size": it.size}, "slotsha1": lambda it: {"sha1": sha1(it)}, "contentmodel": lambda it: {"contentmodel": MODEL},
    "content": lambda it: {"contentmodel": MODEL, "contentformat": FORMAT, "content": Content(it.text)},
}


def part(it, given, tells):
    """What is told of a revision by those of a table that are asked for."""
    found = {}
    for name in filter(given["prop"].__contains__, tells):
        found.update(tells[name](it))
    return found


def told(it, given):
    """How a revision is told: in the old form, where no slots are named, with what its one slot has beside the rest."""
    found, slot = part(it, given, TOLD), part(it, given, IN_SLOT)
    if given["slots"] is None:
        return {**found, **slot}
    return {**found, "slots": {"main": slot} if given["slots"] else {}} if SLOTS & set(given["prop"]) else found


def revisions(query, given, _):
    is_listing = any(given[it] is not None for it in LISTED) or given["dir"] == "newer"
    good, named = query.set.good, query.set.revisions
    if not good:
        return None
    if given["slots"] is None and SLOTS & set(given["prop"]):
        query.asked.warn("revisions", OLD_FORM)
    if named and is_listing:
        raise ApiError("invalidparammix", f'The "revids" parameter may not be used with the list options ({NAMES}).')
    if len(good) > 1 and is_listing:
        raise ApiError("invalidparammix", f'"titles", "pageids" or a generator was used to supply multiple pages, but the {NAMES} parameters may only be used on a single page.')
    if is_listing:
        return history(query, good[0], given)
    return by_number(query, given) if named else newest(query, given)


def put(query, given, places, read):
    """Tells revisions, each of a page and the number by which a reply goes on with it, up to so many bytes of texts; then where it
    goes on. `read` gives the revisions of some places."""
    size = 0
    for at in range(0, len(places), TEXTS_AT_ONCE):
        some = places[at : at + TEXTS_AT_ONCE]
        for place, it in zip(some, read(some)):
            size += len(it.text or "") if it else 0
            if size > BYTES and place is not places[0]:
                return {"continue": place[1]}
            if it:
                query.add(place[0], "revisions", [told(it, given)])
    return None


def has_texts(given):
    """Whether something is told that the texts are read for."""
    return bool(WITH_TEXT & set(given["prop"]))


def newest(query, given):
    """Tells the current revision of each page."""

    def read(some):
        pages = [page for page, _ in some]
        if has_texts(given) and any(it.current.text is None for it in pages):
            pages = query.reader.current([it.title for it in pages], True)
        return [it.current for it in pages]

    first = last_number(given) or 0
    return put(query, given, [(it, it.number) for it in query.set.good if it.number >= first], read)


def by_number(query, given):
    """Tells the revisions that were named."""
    first, pages = last_number(given) or 0, {it.title: it for it in query.set.good}
    places = [(pages[title], it) for it, title in sorted(query.set.revisions.items()) if it >= first]
    return put(query, given, places, lambda some: query.reader.read([(page.title, it) for page, it in some], has_texts(given)))


# The revisions of one page


def most_of(query, given):
    """How many revisions are listed at the most."""
    most = 50 if "content" in given["prop"] else MOST
    return query.asked.within("rvlimit", given["limit"], most) if given["limit"] is not None else 10


def bounds(query, given):
    """The least and the greatest number of a listing, and its earliest and latest moment."""
    for first, second in (("startid", "start"), ("endid", "end"), ("user", "excludeuser")):
        if given[first] is not None and given[second] is not None:
            raise error("invalidparammix", names=f'"rv{first}" and "rv{second}"')
    newest_one = query.set.good[0].current.number
    for name in ("startid", "endid"):
        if given[name] is not None and not 0 < given[name] <= newest_one and not query.reader.place_of(given[name]):
            raise ApiError(f"badid_rv{name}", f'No revision was found for parameter "rv{name}".')
    is_rising, at = given["dir"] == "newer", last_number(given)
    low, high = ("startid", "endid") if is_rising else ("endid", "startid")
    early, late = ("start", "end") if is_rising else ("end", "start")
    least = max(given[low] or 0, at or 0 if is_rising else 0)
    greatest = min(it for it in (given[high], None if is_rising else at, ABOVE) if it is not None)
    return least, greatest, given[early], given[late]


def is_nobody(given):
    """Whether the changes that are listed can be told by their user: all of them are nobody's."""
    return given["user"] in (None, NOBODY) and given["excludeuser"] != NOBODY


def in_order(query, page, given, most):
    """The revisions of a page in the order that is asked for, one more than `most` where there are more."""
    least, greatest, early, late = bounds(query, given)
    is_rising, below = given["dir"] == "newer", greatest + 1 if greatest < ABOVE else None
    # (of those that fall the last ones are the first ones that rise)
    found = collections.deque(maxlen=most + 1 if is_rising else None)
    while is_nobody(given):
        some, below = query.reader.revisions(page.title, below, MOST if is_rising else min(most + 1, MOST))
        found.extend(it for it in some if it.number >= least and not it.is_deletion and (early is None or it.moment >= early) and (late is None or it.moment <= late))
        if below is None or not some or some[-1].number <= least or (not is_rising and len(found) > most):
            break
    return list(found)[::-1] if is_rising else list(found)


def history(query, page, given):
    """Tells the revisions of a page."""
    most = most_of(query, given)
    listed = in_order(query, page, given, most)
    known = {it.number: it for it in listed}

    def read(some):
        return query.reader.read([(page.title, it) for _, it in some]) if has_texts(given) else [known[it] for _, it in some]

    more = put(query, given, [(page, it.number) for it in listed[:most]], read)
    return more or ({"continue": listed[most].number} if len(listed) > most else None)
