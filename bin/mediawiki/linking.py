"""The pages that link to a title, include it or redirect to it: the lists `backlinks` and `embeddedin`, and the properties
`linkshere`, `transcludedin` and `redirects`. They go on behind a page's number."""
import collections
import dataclasses

from mediawiki.errors import ApiError, WikiError, error, told
from mediawiki.listing import Listing, cut, given as given_to, last_number, title_place
from mediawiki.lists import WANTS
from mediawiki.parameters import MOST, choice, choices, limit, namespaces, number, refused, text
from mediawiki.titles import entry, key_of, wanted
from moving import shown

ALL = choice("all", "redirects", "nonredirects", default="all")
EMBEDDEDIN = {
    "title": text(), "pageid": number(), "continue": text(), "namespace": namespaces(), "dir": choice("ascending", "descending", default="ascending"),
    "filterredir": ALL, "limit": limit(),
}
BACKLINKS = {**EMBEDDEDIN, "redirect": refused("ask for the links to each redirect by itself")}
HERE = {
    "prop": choices("pageid", "title", "redirect", default="pageid|title|redirect"), "namespace": namespaces(), "show": choices("redirect", "!redirect"),
    "limit": limit(), "continue": text(),
}
REDIRECTS = {
    "prop": choices("pageid", "title", default="pageid|title"), "namespace": namespaces(), "show": refused("where in its target a redirect leads isn't known"),
    "limit": limit(), "continue": text(),
}
# The wiki's lists, each with the prefix of its parameters.
PREFIXES = {"backlinks": "bl", "embeddedin": "ei"}
# How many pages one request looks at that it doesn't tell.
LOOKED_AT = 5000


@dataclasses.dataclass
class Linking:
    """A page that links to a title or includes it; `target` is where it redirects to."""

    number: int
    title: tuple
    target: tuple | None


def linking(reader, name, title, above, most):
    """Pages that link to a title or include it, above a number, as many as are read at once; and the number above which they go on."""
    prefix = PREFIXES[name]
    more = {f"{prefix}continue": above} if above else {}
    try:
        reply = reader.ask(action="query", list=name, **{f"{prefix}title": shown(*title), f"{prefix}limit": min(most, MOST)}, **more)
    except WikiError as it:
        raise told(it, shown(*title)) from None
    found = [(it["pageid"], key_of(it)) for it in reply["query"][name]]
    there = reader.index.there(reader, [number for number, _ in found])
    found = [it for it in found if it[0] in there]
    targets = reader.targets(found)
    return [Linking(number, it, targets[number]) for number, it in found], reply.get("continue")


def matching(reader, name, title, above, most, fits):
    """As many pages as `most` that fit, by rising numbers, above a number; and the number above which they go on, where so many
    were looked at that the rest is left for another request."""
    found, looked_at = [], 0
    while True:
        part, above = linking(reader, name, title, above, most - len(found) if fits is None else MOST)
        found += [it for it in part if fits is None or fits(it)]
        looked_at += len(part)
        if above is None or len(found) >= most:
            return found[:most], None
        if looked_at >= LOOKED_AT:
            return found, above


def falling(reader, name, title, below, most, fits):
    """The same by falling numbers, below or at a number: all are looked at."""
    found, above = collections.deque(maxlen=most), None
    while True:
        part, above = linking(reader, name, title, above, MOST)
        part = [it for it in part if below is None or it.number <= below]
        found.extend(it for it in part if fits is None or fits(it))
        if above is None or (below is not None and above >= below):
            return list(reversed(found)), None


def fits_of(namespace, is_redirect, target=None):
    """What keeps a page in a list, None where all are kept."""
    if namespace is None and is_redirect is None and target is None:
        return None
    return lambda it: (
        (namespace is None or it.title[0] in namespace) and (is_redirect is None or (it.target is not None) == is_redirect) and (target is None or it.target == target)
    )


# The lists


def title_of(query, given, prefix):
    """The title that a list is of."""
    if (given["title"] is None) == (given["pageid"] is None):
        if given["title"] is None:
            raise ApiError("missingparam", f'One of the parameters "{prefix}title" and "{prefix}pageid" is required.')
        raise error("invalidparammix", names=f'"{prefix}title" and "{prefix}pageid"')
    if given["title"] is not None:
        return wanted(given["title"])
    found = query.reader.title_of(given["pageid"]) if given["pageid"] > 0 else None
    if found is None:
        raise error("nosuchpageid", value=given["pageid"])
    return found


def listed(query, given, name, is_generator):
    """A list of pages, with the parameter by which it goes on."""
    title, at, most = title_of(query, given, PREFIXES[name]), last_number(given), given["limit"]
    fits = fits_of(given["namespace"], WANTS[given["filterredir"]])
    if title[0] < 0:
        return given_to(query, name, Listing([], [], {}), is_generator)
    if given["dir"] == "descending":
        found, rest = falling(query.reader, name, title, at, most + 1, fits)
    else:
        found, rest = matching(query.reader, name, title, at - 1 if at else None, most + 1, fits)
    found, more = cut(found, most, lambda it: f"{it.title[0]}|{it.number}")
    if rest is not None and not more:
        more = {"continue": f"0|{rest + 1}"}
    entries = [{"pageid": it.number, **entry(it.title), **({"redirect": True} if it.target else {})} for it in found]
    return given_to(query, name, Listing(entries, [it.title for it in found], more), is_generator)


def backlinks(query, given, is_generator):
    return listed(query, given, "backlinks", is_generator)


def embeddedin(query, given, is_generator):
    return listed(query, given, "embeddedin", is_generator)


# The properties


def of_pages(query, given, name, kind, fits_title, is_generator):
    """Tells for each page, also for one that is missing, who links to it."""
    at, start = title_place(given)
    found, titles, left = [], [], given["limit"]
    pages = sorted((it for it in query.set.pages if start is None or it.title >= start), key=lambda it: it.title)
    for page in pages:
        above = at - 1 if page.title == start else None
        part, rest = matching(query.reader, kind, page.title, above, left + 1, fits_title(page.title))
        found += [(page, it) for it in part[:left]]
        titles += [it.title for it in part[:left]]
        goes_on = part[left].number if len(part) > left else rest + 1 if rest is not None else None
        left -= len(part[:left])
        if goes_on is not None:
            return told_of_pages(query, given, name, found, titles, {"continue": f"{goes_on}|{page.title[0]}|{page.title[1]}"}, is_generator)
    return told_of_pages(query, given, name, found, titles, {}, is_generator)


def told_of_pages(query, given, name, found, titles, more, is_generator):
    if is_generator:
        return Listing([], titles, more)
    for page, it in found:
        told_of = {"pageid": it.number} if "pageid" in given["prop"] else {}
        told_of.update(entry(it.title) if "title" in given["prop"] else {})
        told_of.update({"redirect": it.target is not None} if "redirect" in given["prop"] else {})
        query.add(page, name, [told_of])
    return more


def here(query, given, name, kind, is_generator):
    shown_only = set(given["show"] or [])
    if len(shown_only) == 2:
        raise error("invalidparammix", names='"redirect" and "!redirect"')
    is_redirect = "redirect" in shown_only if shown_only else None
    return of_pages(query, given, name, kind, lambda title: fits_of(given["namespace"], is_redirect), is_generator)


def linkshere(query, given, is_generator):
    return here(query, given, "linkshere", "backlinks", is_generator)


def transcludedin(query, given, is_generator):
    return here(query, given, "transcludedin", "embeddedin", is_generator)


def redirects(query, given, is_generator):
    return of_pages(query, given, "redirects", "backlinks", lambda title: fits_of(given["namespace"], True, title), is_generator)
