"""list=recentchanges: the revisions of all pages, the newest or the oldest first."""
from mediawiki.errors import error
from mediawiki.listing import Listing, given as given_to, last_number
from mediawiki.pages import TEXTS_AT_ONCE
from mediawiki.parameters import MOST, choice, choices, flag, limit, moment, namespaces, refused, text
from mediawiki.revisions import NOBODY, sha1
from mediawiki.titles import key_of, named
from moving import iso_of

TABLE = {
    "start": moment(), "end": moment(), "dir": choice("newer", "older", default="older"), "namespace": namespaces(), "user": text(), "excludeuser": text(),
    "tag": refused("changes have no tags"), "title": text(), "limit": limit(), "continue": text(), "toponly": flag(),
    "prop": choices(
        "user", "userid", "comment", "parsedcomment", "flags", "timestamp", "title", "ids", "sizes", "redirect", "loginfo", "tags", "sha1",
        default="title|timestamp|ids"
    ),
    "show": choices("minor", "!minor", "bot", "!bot", "anon", "!anon", "redirect", "!redirect"),
    "type": choices("edit", "new", "log", "external", "categorize", default="edit|new|log|categorize"), "generaterevisions": refused("pages are generated alone"),
    "slot": choice("main"),
}
KINDS = {"edit": "edit", "new": "new", "delete": "log"}
# How many changes one request looks at that it doesn't tell.
LOOKED_AT = 20000
# What holds for none of the changes here, and for all.
NEVER, ALWAYS = {"minor", "bot", "!anon"}, {"!minor", "!bot", "anon"}


def start_of(given, newest):
    """The number of the change at which a list goes on."""
    at = last_number(given)
    return at if at is not None else 1 if given["dir"] == "newer" else newest


def parts(reader, given, newest):
    """Parts of the changes in their order, each with the number at which the next one begins."""
    at = start_of(given, newest)
    while 1 <= at <= newest or (given["dir"] == "older" and at > newest >= 1):
        if given["dir"] == "newer":
            below, most = min(at + MOST, newest + 1), min(MOST, newest + 1 - at)
            found = reversed(read(reader, below, most))
            at = below
        else:
            found = read(reader, at + 1, MOST if given["limit"] >= MOST or fits_of(given) else given["limit"] + 1)
            at = found[-1]["revid"] - 1 if found else 0
        yield found, at


def read(reader, below, most):
    return reader.ask(action="query", list="recentchanges", rclimit=most, rccontinue=below)["query"]["recentchanges"]


def fits_of(given):
    """Whether some changes aren't told."""
    return any(given[it] is not None for it in ("start", "end", "namespace", "title", "user", "excludeuser")) or given["toponly"] or given["show"] or set(KINDS.values()) - set(given["type"])


def is_told(query, it, given, title):
    """Whether a change is one of those that are asked for, but for redirects."""
    early, late = (given["start"], given["end"]) if given["dir"] == "newer" else (given["end"], given["start"])
    return (
        KINDS[it["type"]] in given["type"] and (early is None or it["timestamp"] >= early) and (late is None or it["timestamp"] <= late)
        and (given["namespace"] is None or it["ns"] in given["namespace"]) and (title is None or key_of(it) == title)
        and (not given["toponly"] or query.reader.index.judged(it["pageid"])[0] == it["revid"])
    )


def only_redirects(query, found, given):
    """Leaves the changes of pages that redirect now, or that don't, where this is asked for."""
    wants = {"redirect", "!redirect"} & set(given["show"])
    if len(wants) != 1:
        return found
    targets = query.reader.targets([(it["pageid"], key_of(it)) for it in found])
    return [it for it in found if (targets[it["pageid"]] is not None) == (wants == {"redirect"})]


def found_of(query, given):
    """The changes of the list, one more than its limit where there are more, and the number at which it goes on."""
    newest = query.reader.ask(action="query", list="recentchanges", rclimit=1)["query"]["recentchanges"]
    is_empty = not newest or NEVER & set(given["show"]) or given["user"] not in (None, NOBODY) or given["excludeuser"] == NOBODY
    if given["toponly"]:
        query.reader.follow()
    title = named(given["title"]) if given["title"] is not None else None
    if isinstance(title, str):
        raise error("invalidtitle", value=given["title"])
    found, looked_at = [], 0
    for part, at in parts(query.reader, given, newest[0]["revid"]) if not is_empty else ():
        part = list(part)
        looked_at += len(part)
        found += only_redirects(query, [it for it in part if is_told(query, it, given, title)], given)
        if len(found) > given["limit"]:
            return found[: given["limit"]], found[given["limit"]]["revid"]
        if looked_at >= LOOKED_AT:
            return found, at
    return found, None


def check_show(given):
    for it in given["show"]:
        if f"!{it}" in given["show"]:
            raise error("invalidparammix", names=f'"rcshow={it}" and "rcshow=!{it}"')


def recentchanges(query, given, is_generator):
    check_show(given)
    found, at = found_of(query, given)
    more = {"continue": f"{at}|{at}"} if at and at > 0 else {}
    titles = list(dict.fromkeys(key_of(it) for it in found))
    return given_to(query, "recentchanges", Listing([] if is_generator else told_all(query, found, given), titles, more), is_generator)


# How a change is told


def ids(it):
    is_log = it["type"] == "delete"
    return {"pageid": it["pageid"], "revid": it["revid"] if not is_log else 0, "old_revid": it["oldrevid"] if not is_log else 0, "rcid": it["revid"]}


def loginfo(it):
    if it["type"] != "delete":
        return {}
    return {"logid": it["revid"], "logtype": "delete", "logaction": "delete", "logparams": {}}


TOLD = {
    "title": lambda it: {"ns": it["ns"], "title": it["title"]}, "ids": ids, "user": lambda it: {"user": NOBODY, "anon": True},
    "userid": lambda it: {"userid": 0, "anon": True}, "flags": lambda it: {"bot": False, "new": it["type"] == "new", "minor": False},
    "timestamp": lambda it: {"timestamp": iso_of(it["timestamp"])}, "comment": lambda it: {"comment": ""}, "parsedcomment": lambda it: {"parsedcomment": ""},
    "loginfo": loginfo, "tags": lambda it: {"tags": []},
}


def told_all(query, found, given):
    """How changes are told, with the sizes, the SHA-1s and the redirects that are read for them."""
    told = [{"type": KINDS[it["type"]]} for it in found]
    for it, entry_told in zip(found, told):
        for name, tells in TOLD.items():
            if name in given["prop"]:
                entry_told.update(tells(it))
    if "sizes" in given["prop"] or "sha1" in given["prop"]:
        add_sizes(query, found, told, given)
    if "redirect" in given["prop"]:
        targets = query.reader.targets(list({it["pageid"]: (it["pageid"], key_of(it)) for it in found}.values()))
        for it, entry_told in zip(found, told):
            entry_told["redirect"] = targets[it["pageid"]] is not None
    return told


def add_sizes(query, found, told, given):
    """Adds how long the texts were before and behind each change, and the SHA-1 of the latter."""
    for at in range(0, len(found), TEXTS_AT_ONCE):
        part = found[at : at + TEXTS_AT_ONCE]
        now = query.reader.read([(key_of(it), it["revid"]) for it in part], "sha1" in given["prop"])
        before = query.reader.read([(key_of(it), it["oldrevid"]) for it in part if it["oldrevid"]], False) if "sizes" in given["prop"] else []
        sizes = {it.number: it.size for it in before}
        for it, entry_told, revision in zip(part, told[at:], now):
            if "sizes" in given["prop"]:
                entry_told.update(oldlen=sizes.get(it["oldrevid"], 0), newlen=revision.size)
            if "sha1" in given["prop"] and it["type"] != "delete":
                entry_told["sha1"] = sha1(revision)
