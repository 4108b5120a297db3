"""action=parse and action=expandtemplates. The wiki makes no HTML: where that is asked for, the expanded text comes in a `<pre>`."""
from mediawiki.errors import ApiError, WikiError, error, told
from mediawiki.parameters import choice, choices, flag, lost, number, refused, text
from mediawiki.revisions import FORMAT, MODEL
from mediawiki.shapes import Boxed, Content
from mediawiki.titles import key_of, page_wanted, wanted
from moving import TEXT_BYTES, shown

# What MediaWiki tells of a page without being asked and this wiki doesn't know.
LACKING = ("langlinks", "images", "externallinks", "sections", "iwlinks", "properties", "parsewarnings")
PROPS = ("text", "categories", "links", "templates", "revid", "displaytitle", "wikitext")
HTML = "no HTML is made here"
PARSE = {
    "title": text(), "text": text(), "page": text(), "pageid": number(), "oldid": number(), "redirects": flag(),
    "prop": choices(
        *PROPS, *LACKING, default="|".join(("text", "categories", "links", "templates", "revid", "displaytitle", *LACKING))
    ),
    "revid": refused("a text is expanded as it is, whatever revision it is of"), "summary": refused("there are no summaries"),
    "section": refused("pages aren't cut into sections"), "sectiontitle": refused("pages aren't cut into sections"),
    "pst": refused("texts are kept as they are given"), "onlypst": refused("texts are kept as they are given"), "contentformat": choice(FORMAT), "contentmodel": choice(MODEL),
    **{it: lost(HTML) for it in (
        "wrapoutputclass", "disablelimitreport", "disableeditsection", "disablestylededuplication", "disabletoc", "disablepp", "useskin",
        "preview", "sectionpreview", "showstrategykeys", "effectivelanglinks", "generatexml",
    )},
}
EXPAND = {
    "title": text(), "text": text(), "revid": refused("a text is expanded as it is, whatever revision it is of"),
    "prop": choices("wikitext"),
    "includecomments": refused("comments go"), "showstrategykeys": lost(HTML), "generatexml": refused("no tree is told"),
}
OF_PAGE = ("page", "pageid", "oldid")


def escaped(what):
    return what.replace("&", "&amp;").replace("<", "&lt;").replace(">", "&gt;")


def expanded(asked, title, what):
    """What a text expands to in the place of a page; `title` may be one of Special or Media."""
    if len(what.encode()) > TEXT_BYTES:
        raise error("contenttoobig")
    try:
        return asked.reader.ask(action="expandtemplates", title=shown(*title), text=what)["expandtemplates"]["wikitext"]
    except WikiError as it:
        raise told(it, shown(*title)) from None


def expandtemplates(asked):
    given = asked.read("expandtemplates", EXPAND)
    if given["text"] is None:
        raise error("missingparam", name="text")
    found = expanded(asked, wanted(given["title"] if given["title"] is not None else "API"), given["text"])
    if "prop" not in asked.parameters:
        asked.warn("expandtemplates", 'Because "prop" was not specified, a legacy format has been used for the output. This format is deprecated, and in the future the new format will always be used.')
        return {"expandtemplates": {"wikitext": Content(found)}}
    return {"expandtemplates": {"wikitext": found} if "wikitext" in given["prop"] else {}}


# parse


class Parsed:
    """A page or a text as it expands. `rows` is what the page links to, includes and belongs to, None of a text."""

    def __init__(self, title, expanded, wikitext, rows=None, number=0, revision=0):
        self.title, self.expanded, self.wikitext, self.rows = title, expanded, wikitext, rows
        self.number, self.revision = number, revision


def parsed_page(asked, title, with_text):
    """The current revision of a page."""
    try:
        it = asked.reader.ask(action="parse", page=shown(*title))["parse"]
    except WikiError as error_of:
        raise told(error_of, shown(*title)) from None
    wikitext = asked.reader.read([(title, it["revid"])])[0].text if with_text else None
    return Parsed(title, it["expanded"], wikitext, it, it["pageid"], it["revid"])


def parsed_revision(asked, number, with_text):
    """A revision; of one that isn't current only the text is known."""
    place = asked.reader.place_of(number)
    if place is None or place["type"] == "delete":
        raise error("nosuchrevid", value=number)
    title = key_of(place)
    page, = asked.reader.current([title])
    if page.current and page.current.number == number:
        return parsed_page(asked, title, with_text)
    it, = asked.reader.read([(title, number)])
    return Parsed(title, expanded(asked, title, it.text), it.text, None, place["pageid"], number)


def page_of(asked, given):
    """The title of the page that is asked for, and the redirect that was followed."""
    if given["pageid"] is not None:
        title = asked.reader.title_of(given["pageid"]) if given["pageid"] > 0 else None
        if title is None:
            raise error("nosuchpageid", value=given["pageid"])
    else:
        title = page_wanted(given["page"])
    page, = asked.reader.current([title])
    if not page.current:
        raise error("missingtitle" if given["pageid"] is None else "nosuchpageid", value=given["pageid"])
    target = asked.reader.targets([(page.number, title)])[page.number] if given["redirects"] else None
    if not target or target == title:
        return title, []
    return page_wanted(shown(*target)), [{"from": shown(*title), "to": shown(*target)}]


def check_one(given):
    """Refuses more than one of the ways of naming what is to be parsed."""
    for last in ("text", "title"):
        names = [it for it in (*OF_PAGE, last) if given[it] is not None]
        if len(names) > 1:
            raise error("invalidparammix", names=", ".join(f'"{it}"' for it in names))
    if given["text"] is None and all(given[it] is None for it in OF_PAGE):
        raise ApiError("missingparam", 'At least one of the parameters "page", "pageid", "oldid" and "text" is required.')


def parse(asked):
    given = asked.read("parse", PARSE)
    check_one(given)
    with_text, redirects = "wikitext" in given["prop"], []
    if given["oldid"] is not None:
        it = parsed_revision(asked, given["oldid"], with_text)
    elif given["text"] is None:
        title, redirects = page_of(asked, given)
        it = parsed_page(asked, title, with_text)
    else:
        title = wanted(given["title"] if given["title"] is not None else "API")
        it = Parsed(title, expanded(asked, title, given["text"]), given["text"])
    return {"parse": {**parse_told(asked, it, given), **({"redirects": redirects} if redirects else {})}}


def parse_told(asked, it, given):
    """What is told of what was parsed."""
    found = {"title": shown(*it.title), "pageid": it.number}
    tells = TOLD if it.rows else {name: TOLD[name] for name in TOLD if name not in ("links", "templates", "categories")}
    for name in given["prop"]:
        if name in tells:
            found.update(tells[name](asked, it))
    lacking = [name for name in given["prop"] if name not in tells]
    if lacking:
        asked.warn("parse", f"This wiki doesn't tell these of {'a page' if it.rows else 'a text that no page has now'}: {', '.join(lacking)}.")
    return found


def linked(name):
    """Tells the titles of a kind, each with whether its page exists."""

    def tells(asked, it):
        titles = [key_of(row) for row in it.rows[name]]
        pages = [page for at in range(0, len(titles), 500) for page in asked.reader.current(titles[at : at + 500])]
        return {name: [{"ns": page.title[0], "title": Content(page.shown), "exists": page.current is not None} for page in pages]}

    return tells


def categories(asked, it):
    """Tells the categories, each with whether it has a page."""
    pages = asked.reader.current([(14, row["category"].replace(" ", "_")) for row in it.rows["categories"]])
    found = [{"sortkey": row["sortkey"], "category": Content(row["category"].replace(" ", "_"))} for row in it.rows["categories"]]
    return {"categories": [{**row, **({} if page.current else {"missing": True})} for row, page in zip(found, pages)]}


TOLD = {
    "text": lambda asked, it: {"text": Boxed(f'<div class="mw-parser-output"><pre>{escaped(it.expanded)}</pre></div>')},
    "revid": lambda asked, it: {"revid": it.revision} if it.revision else {}, "displaytitle": lambda asked, it: {"displaytitle": escaped(shown(*it.title))},
    "wikitext": lambda asked, it: {"wikitext": Boxed(it.wikitext)}, "links": linked("links"), "templates": linked("templates"), "categories": categories,
}
