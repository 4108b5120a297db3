"""What a query's `prop` tells of each page from its own text: what it is, what it links to, includes and belongs to."""
from mediawiki.errors import WikiError, error, told
from mediawiki.listing import Listing, cut, title_place
from mediawiki.pages import TEXTS_AT_ONCE
from mediawiki.parameters import choice, choices, limit, namespaces, text, texts
from mediawiki.revisions import MODEL
from mediawiki.titles import CATEGORY, address, associated, entry, key_of, named, sort_key
from moving import iso_of, shown

INFO = {
    "prop": choices(
        "protection", "talkid", "subjectid", "associatedpage", "url", "readable", "displaytitle"
    ),
    "linkcontext": text(), "testactions": texts(), "testactionsdetail": choice("boolean", default="boolean"), "continue": text(),
}
UP = choice("ascending", "descending", default="ascending")
LINKED = {"namespace": namespaces(), "limit": limit(), "continue": text(), "dir": UP}
LINKS, TEMPLATES = {**LINKED, "titles": texts()}, {**LINKED, "templates": texts()}
CATEGORIES = {
    "prop": choices("sortkey", "hidden"), "show": choices("hidden", "!hidden"), "limit": limit(), "continue": text(),
    "categories": texts(), "dir": UP,
}
ACTIONS = {"read", "edit", "create", "delete", "createpage", "createtalk"}


# info


def info(query, given, _):
    pages = query.set.pages
    targets = query.reader.targets([(it.number, it.title) for it in pages if it.current])
    others = numbers_of_others(query, given, pages)
    for page in pages:
        query.set.entry_of(query.entries, page).update(page_info(query, given, page, targets.get(page.number), others))


def page_info(query, given, page, target, others):
    """What is told of a page itself."""
    found = {"contentmodel": MODEL, "pagelanguage": "en", "pagelanguagehtmlcode": "en", "pagelanguagedir": "ltr"}
    if page.current:
        found.update(touched=iso_of(page.current.moment), lastrevid=page.current.number, length=page.current.size)
        found.update({name: True for name, it in (("redirect", target), ("new", not page.current.parent)) if it})
    for name in given["prop"]:
        found.update(INFOS[name](query, page, others))
    if given["testactions"]:
        found["actions"] = {it: it in ACTIONS for it in given["testactions"]}
    return found


def protection(query, page, _):
    return {"protection": [], "restrictiontypes": ["edit", "move"] if page.current else ["create"]}


def url(query, page, _):
    full = address(query.asked.site.base, page.title)
    return {"fullurl": full, "editurl": f"{full}/edit", "canonicalurl": full}


def other_number(name, is_talk):
    """The number of the page beside a page, where it exists."""
    return lambda query, page, others: {name: others[page.title]} if page.title[0] % 2 == is_talk and others.get(page.title) else {}


INFOS = {
    "protection": protection, "url": url, "readable": lambda query, page, _: {"readable": True},
    "displaytitle": lambda query, page, _: {"displaytitle": page.shown.replace("&", "&amp;").replace("<", "&lt;").replace(">", "&gt;")},
    "associatedpage": lambda query, page, _: {"associatedpage": shown(*associated(page.title))},
    "talkid": other_number("talkid", 0), "subjectid": other_number("subjectid", 1),
}


def numbers_of_others(query, given, pages):
    """The numbers of the pages beside the pages, talk page or subject, by the titles of the latter."""
    if not {"talkid", "subjectid"} & set(given["prop"]):
        return {}
    found = query.reader.current([associated(it.title) for it in pages])
    return {page.title: it.number for page, it in zip(pages, found)}


# links, templates and categories


class Parsed:
    """What the wiki tells of the pages of a query as they expand, read as it is wanted and kept for the query."""

    def __init__(self, query):
        self.query, self.known = query, {}

    def of(self, pages):
        """The links, templates and categories of pages, one after the other."""
        for at in range(0, len(pages), TEXTS_AT_ONCE):
            part = pages[at : at + TEXTS_AT_ONCE]
            unknown = [it for it in part if it.title not in self.known]
            for page, reply in zip(unknown, self.query.reader.replies([{"action": "parse", "page": it.shown} for it in unknown]) if unknown else []):
                self.known[page.title] = self.rows(page, reply)
            yield from ((it, self.known[it.title]) for it in part)

    def rows(self, page, reply):
        if "error" in reply:
            if reply["error"]["code"] == "missingtitle":
                return {"links": [], "templates": [], "categories": []}
            raise told(WikiError(reply["error"]), page.shown)
        found = reply["parse"]
        categories = {(CATEGORY, it["category"].replace(" ", "_")): it["sortkey"] for it in found["categories"]}
        return {"links": [key_of(it) for it in found["links"]], "templates": [key_of(it) for it in found["templates"]], "categories": categories}


def parsed(query):
    if not hasattr(query, "parsed"):
        query.parsed = Parsed(query)
    return query.parsed


def wanted_titles(given, name):
    """The titles that a list is kept to, None where it isn't."""
    if given.get(name) is None:
        return None
    found = [named(it) for it in given[name]]
    return {it for it in found if isinstance(it, tuple)}


def rows(query, given, kind, only):
    """The titles that pages have of a kind, each with its page, from where the list goes on, and one more than its limit."""
    (at, start), is_falling, found = title_place(given), given["dir"] == "descending", []
    pages = [it for it in query.set.good if at is None or it.number >= at]
    for page, it in parsed(query).of(pages):
        for title in sorted(it[kind], key=lambda it: (it[0], it[1].encode()), reverse=is_falling):
            if page.number == at and (title > start if is_falling else title < start):
                continue
            if (given.get("namespace") is None or title[0] in given["namespace"]) and (only is None or title in only):
                found.append((page, title, it[kind]))
        if len(found) > given["limit"]:
            break
    return found


def of_pages(query, given, kind, only, is_generator, told_of):
    """Tells for each page its titles of a kind, or generates their pages."""
    found, more = cut(rows(query, given, kind, only), given["limit"], lambda it: f"{it[0].number}|{it[1][0]}|{it[1][1]}")
    if is_generator:
        return Listing([], [title for _, title, _ in found], more)
    for page, title, it in found:
        query.add(page, kind, [told_of(page, title, it)])
    return more


def links(query, given, is_generator):
    return of_pages(query, given, "links", wanted_titles(given, "titles"), is_generator, lambda page, title, _: entry(title))


def templates(query, given, is_generator):
    return of_pages(query, given, "templates", wanted_titles(given, "templates"), is_generator, lambda page, title, _: entry(title))


def categories(query, given, is_generator):
    if "hidden" in (given["show"] or []) and "!hidden" in given["show"]:
        raise error("invalidparammix", names='"clshow=hidden" and "clshow=!hidden"')

    def told_of(page, title, prefixes):
        found = entry(title)
        if "sortkey" in given["prop"]:
            found.update(sortkey=sort_key(prefixes[title], page.title).hex(), sortkeyprefix=prefixes[title])
        return {**found, "hidden": False} if "hidden" in given["prop"] else found

    if "hidden" in given["show"]:
        return Listing([], [], {}) if is_generator else {}
    return of_pages(query, given, "categories", wanted_titles(given, "categories"), is_generator, told_of)
