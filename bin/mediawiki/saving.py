"""action=edit and action=delete. Each save names its base to the wiki, which judges it: where a client tells in MediaWiki's ways
what it has seen, the revision that this was is found first."""
import hashlib

from mediawiki.errors import ApiError, WikiError, error, told
from mediawiki.meta import TOKEN
from mediawiki.parameters import choice, flag, lost, moment, number, refused, text
from mediawiki.revisions import FORMAT, MODEL
from mediawiki.titles import key_of, page_wanted
from moving import TEXT_BYTES, iso_of, kept, shown

# How often a text is added to a page that others change meanwhile.
TRIES = 20
# By how many seconds the clock of a client may be wrong.
CLOCKS = 60

NOTHING = {
    "summary": "changes have no summaries here", "minor": "changes aren't marked as minor here", "notminor": "changes aren't marked as minor here",
    "bot": "changes aren't marked as a bot's here", "tags": "changes have no tags here", "watchlist": "there are no watchlists here",
    "watchlistexpiry": "there are no watchlists here", "watch": "there are no watchlists here", "unwatch": "there are no watchlists here",
}
SECTIONS = "pages aren't cut into sections here; read the whole page, and save it whole"
EDIT = {
    "title": text(), "pageid": number(), "text": text(), "appendtext": text(), "prependtext": text(), "token": text(), "md5": text(),
    "baserevid": number(), "basetimestamp": moment(), "starttimestamp": moment(), "recreate": flag(), "createonly": flag(), "nocreate": flag(),
    "undo": number(least=0), "undoafter": number(least=0), "redirect": flag(), "contentformat": choice(FORMAT), "contentmodel": choice(MODEL),
    "section": refused(SECTIONS), "sectiontitle": refused(SECTIONS), **{name: lost(why) for name, why in NOTHING.items()},
}
DELETE = {
    "title": text(), "pageid": number(), "token": text(), "reason": lost("deletions have no reasons here"),
    "deletetalk": refused("delete the talk page by itself"), "oldimage": refused("there are no files"),
    **{it: lost(NOTHING[it]) for it in ("tags", "watch", "unwatch", "watchlist", "watchlistexpiry")},
}


def check_save(asked, name, given):
    """Refuses a save that has no token, or has it in its address, or a wrong one; one that isn't posted has none elsewhere."""
    if given["token"] is None:
        raise error("missingparam", name="token")
    if "token" in asked.in_address:
        raise error("mustpostparams", value="token")
    if given["token"] != TOKEN:
        raise error("badtoken")
    if not asked.is_posted:
        raise error("mustbeposted", value=name)


def title_of(asked, given):
    """The title that is meant by `title` or by `pageid`."""
    if (given["title"] is None) == (given["pageid"] is None):
        if given["title"] is None:
            raise ApiError("missingparam", 'One of the parameters "title" and "pageid" is required.')
        raise error("invalidparammix", names='"title" and "pageid"')
    if given["title"] is not None:
        return page_wanted(given["title"])
    found = asked.reader.title_of(given["pageid"]) if given["pageid"] > 0 else None
    if found is None or not asked.reader.current([found])[0].current:
        raise error("nosuchpageid", value=given["pageid"])
    return found


# The base


def base_at(reader, title, seconds, begun):
    """The revision of a title that was current at a moment, 0 where the page was missing then. Where two of that very second
    could be meant it is a conflict; but not where the client says that it began long behind that second, so that both were there."""
    below = None
    while True:
        found, below = history(reader, title, below)
        for at, it in enumerate(found):
            if it.moment > seconds:
                continue
            before = found[at + 1] if at + 1 < len(found) else (history(reader, title, below, 1)[0] or [None])[0] if below else None
            if it.moment == seconds and before and before.moment == seconds and (begun is None or begun < seconds + CLOCKS):
                raise error("editconflict")
            return 0 if it.is_deletion else it.number
        if below is None:
            return 0


def history(reader, title, below, most=50):
    """Some revisions of a title below a number, none where it never had a page."""
    try:
        return reader.revisions(title, below, most)
    except WikiError as it:
        if it.code != "missingtitle":
            raise
        return [], None


def base_of(asked, title, given):
    """The base that the client names, None where it names none."""
    if given["baserevid"]:
        return given["baserevid"]
    if given["basetimestamp"] is not None and asked.parameters["basetimestamp"]:
        return base_at(asked.reader, title, given["basetimestamp"], given["starttimestamp"])
    return None


def check_deleted(asked, title, given):
    """Refuses the save of a page that was deleted since the client began; else the base of one that is missing is 0."""
    if given["starttimestamp"] is None or given["recreate"]:
        return None
    found, _ = history(asked.reader, title, None, 1)
    if not found or not found[0].is_deletion:
        return None
    if found[0].moment > given["starttimestamp"]:
        raise error("pagedeleted")
    return 0


# The text


def undone(asked, title, given):
    """The text without the last revision, which is the base, and its number."""
    current, = asked.reader.current([title])
    if not current.current:
        raise error("missingtitle")
    for it in filter(None, (given["undo"], given["undoafter"])):
        place = asked.reader.place_of(it)
        if place is None or place["type"] == "delete":
            raise error("nosuchrevid", value=it)
        if key_of(place) != title:
            raise error("revwrongpage", value=it, title=shown(*title))
    if given["undo"] != current.current.number:
        raise ApiError("undofailure", "This wiki undoes the last revision of a page alone: it merges no texts.")
    after = given["undoafter"] or current.current.parent
    if not after:
        raise error("nosuchrevid", value=given["undoafter"] or 0)
    it, = asked.reader.read([(title, after)])
    return it.text, current.current.number


def check_md5(given, what):
    if given["md5"] is not None and hashlib.md5(what.encode()).hexdigest() != given["md5"]:
        raise error("badmd5")


def turned(asked, title, given):
    """Where the page redirects to, where this is asked for; both are told."""
    if not given["redirect"]:
        return title, None
    if given["appendtext"] is None and given["prependtext"] is None:
        raise ApiError("redirect-appendonly", 'You have attempted to edit using the redirect-following mode, which must be used in conjunction with "section=new", "prependtext", or "appendtext".')
    page, = asked.reader.current([title])
    target = asked.reader.targets([(page.number, title)])[page.number] if page.current else None
    if not target:
        return title, None
    return page_wanted(shown(*target)), [{"from": shown(*title), "to": shown(*target)}]


# The saves


def saved(asked, title, what, base, given):
    """The wiki's reply to a save."""
    # (cut here as the wiki does it, so that what is too long isn't sent)
    what = kept(what)
    if len(what.encode()) > TEXT_BYTES:
        raise error("contenttoobig")
    more = {} if base is None else {"baserevid": base}
    more.update({name: 1 for name in ("createonly", "nocreate") if given[name]})
    return asked.reader.ask(action="edit", title=shown(*title), text=what, token=TOKEN, **more)["edit"]


def added(asked, title, given):
    """The reply to a save that adds to the page's text as it is now, whatever the client has seen of it; tried again where somebody
    else has changed it meanwhile."""
    before, behind = given["prependtext"] or "", given["appendtext"] or ""
    check_md5(given, before + behind)
    for _ in range(TRIES):
        page, = asked.reader.current([title], True)
        number, old = (page.current.number, page.current.text) if page.current else (0, "")
        if not page.current:
            check_deleted(asked, title, given)
        try:
            return saved(asked, title, before + old + behind, number, given)
        except WikiError as it:
            if it.code != "editconflict":
                raise
    raise error("editconflict")


def replaced(asked, title, given):
    """The reply to a save of a whole text."""
    what, base = given["text"], base_of(asked, title, given)
    if given["undo"]:
        what, current = undone(asked, title, given)
        if base not in (None, current):
            raise error("editconflict")
        base = current
    check_md5(given, what)
    deleted = check_deleted(asked, title, given)
    if base is None and deleted == 0:
        base = 0
    return saved(asked, title, what, base, given)


def edit(asked):
    given = asked.read("edit", EDIT)
    check_save(asked, "edit", given)
    if all(given[it] is None for it in ("text", "appendtext", "prependtext", "undo")):
        raise ApiError("missingparam", 'At least one of the parameters "text", "appendtext", "prependtext" and "undo" is required.')
    if not given["undo"] and all(given[it] is None for it in ("text", "appendtext", "prependtext")):
        raise error("missingparam", name="text")
    title, redirects = turned(asked, title_of(asked, given), given)
    is_added = given["appendtext"] is not None or given["prependtext"] is not None
    try:
        reply = (added if is_added and not given["undo"] else replaced)(asked, title, given)
    except WikiError as it:
        if it.code == "editconflict" and it.answered["current"] == 0:
            raise error("pagedeleted") from None
        raise told(it, shown(*title)) from None
    return {**({"redirects": redirects} if redirects else {}), "edit": edit_told(asked, title, reply)}


def edit_told(asked, title, reply):
    """How a save is told."""
    found = {"new": True} if reply.get("new") else {}
    found.update(result="Success", pageid=reply["pageid"], title=reply["title"], contentmodel=MODEL)
    if reply.get("nochange"):
        return {**found, "nochange": True}
    made = asked.reader.revisions(title, reply["newrevid"] + 1, 1)[0][0]
    return {**found, "oldrevid": reply["oldrevid"], "newrevid": reply["newrevid"], "newtimestamp": iso_of(made.moment)}


def delete(asked):
    given = asked.read("delete", DELETE)
    check_save(asked, "delete", given)
    title = title_of(asked, given)
    try:
        reply = asked.reader.ask(action="delete", title=shown(*title), token=TOKEN)["delete"]
    except WikiError as it:
        raise told(it, shown(*title)) from None
    return {"delete": {"title": reply["title"], "reason": "", "logid": reply["revid"]}}
