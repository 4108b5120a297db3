"""list=allpages, of the titles that mediawiki/index.py has."""
from mediawiki.errors import ApiError
from mediawiki.listing import Listing, cut, given as given_to
from mediawiki.parameters import MOST, choice, limit, namespaces, refused, text
from mediawiki.titles import entry, part

SIZES, FREE = "the sizes of all pages aren't known", "no page is protected here"
ALLPAGES = {
    "from": text(), "to": text(), "prefix": text(), "continue": text(), "namespace": namespaces(False), "limit": limit(),
    "filterredir": choice("all", "redirects", "nonredirects", default="all"), "dir": choice("ascending", "descending", default="ascending"),
    "minsize": refused(SIZES), "maxsize": refused(SIZES), "filterlanglinks": choice("all", default="all"), "prexpiry": choice("all", default="all"),
    "prfiltercascade": choice("all", default="all"), "prtype": refused(FREE), "prlevel": refused(FREE),
}
# Behind each key, and how many pages one request looks at that it doesn't tell.
LAST, LOOKED_AT = "\U0010ffff", 5000
# Whether the pages that are told redirect.
WANTS = {"all": None, "redirects": True, "nonredirects": False}


def bounds(given, namespace):
    """The least and the greatest key of a list of titles in a namespace."""
    is_falling = given["dir"] == "descending"
    first, last = (part(given[it] or "", namespace) for it in ("from", "to"))
    if is_falling:
        first, last = last, first
    prefix = part(given["prefix"] or "", namespace)
    low, high = max(first, prefix, key=str.encode), last or LAST
    if prefix:
        high = min(high, prefix + LAST, key=str.encode)
    if given["continue"]:
        low, high = (low, min(high, given["continue"], key=str.encode)) if is_falling else (max(low, given["continue"], key=str.encode), high)
    return low, high


def pages_of(query, given):
    """Pages of the list, as many as its limit and one more; and the key at which it goes on where the rest is left for later."""
    is_falling, most, wants = given["dir"] == "descending", given["limit"] + 1, WANTS[given["filterredir"]]
    query.reader.follow()
    low, high = bounds(given, given["namespace"])
    found, looked_at = [], 0
    while True:
        rows = query.reader.index.listed(given["namespace"], low, high, MOST + 1, is_falling)
        part = rows[:MOST]
        targets = query.reader.targets([(it[0], it[1:]) for it in part]) if wants is not None else {}
        found += [it for it in part if wants is None or (targets[it[0]] is not None) == wants]
        looked_at += len(part)
        if len(rows) <= MOST or len(found) >= most:
            return found[:most], None
        at = rows[MOST][2]
        if looked_at >= LOOKED_AT:
            return found, at
        low, high = (low, at) if is_falling else (at, high)


def allpages(query, given, is_generator):
    if is_generator and query.given["redirects"]:
        raise ApiError("params", 'Use "gapfilterredir=nonredirects" instead of "redirects" when using "allpages" as a generator.')
    found, rest = pages_of(query, given)
    found, more = cut(found, given["limit"], lambda it: it[2])
    if rest is not None and not more:
        more = {"continue": rest}
    entries = [{"pageid": it[0], **entry(it[1:])} for it in found]
    return given_to(query, "allpages", Listing(entries, [it[1:] for it in found], more), is_generator)
