"""The inputs of the benches: texts of each sort, pages that are drafted, lines of scripts, messages, and stores in files."""

import json
import os
import sqlite3
import urllib.parse

from measure import Running

# A page's ordinary text.
ORDINARY = (
    "'''Leiden''' is a city in [[South Holland]], {{population|city=Leiden|year=2020}} with a [[Leiden University|university]]."
    "<!-- see the talk page -->\n{{Infobox\n| name = Leiden\n| area = {{convert|23.3|km2}}\n| motto = {{{motto|none}}}\n}}\n"
    "It has <nowiki>[[canals]]</nowiki> and a [[list of museums|number of museums]].\n <!-- the history follows -->\n"
    "== History ==\nThe town grew around a hill at the [[Old Rhine|Rhine]] &amp; was a [[Category:Cities]] by 1266."
    "{{cite|title=Holland|page=12}}\n"
)
COMMENTS = "\n<!--a--> <!--b--><!--c-->x"

# What a text of each sort begins with, what its first half repeats, and what its second: ordinary wikitext, and such as would
# cost a careless reader most (what never ends, what is closed and wasn't opened, what crosses).
SORTS = {
    "ordinary": ("", ORDINARY, ORDINARY),
    "angles": ("", "<", "<"),
    "open_comment": ("<!--", " a - b ", "-> c --"),
    "comments": ("", COMMENTS, COMMENTS),
    "elements": ("", "<nowiki>", "<nowiki>"),
    "open_tags": ("", "<nowiki ", "<pre "),
    "parts": ("", "<onlyinclude>", "<onlyinclude>"),
    "braces": ("", "{", "{"),
    "calls": ("", "{{a|", "{{a|"),
    "links": ("", "[[a|", "]]"),
    "closing": ("", "}}]]", "}}}a]]]"),
    "crossing": ("", "{{[[a|", "}}]]"),
    "open_links": ("", "[[", "[["),
    "labels": ("", "[[a|", "[[a|b]"),
    "long_label": ("[[a|", "a label ", "a label ] "),
}


def repeated(pattern, size):
    return (pattern * (size // len(pattern) + 1))[:size]


def text(sort, size):
    """A text of the sort with so many bytes."""
    head, first, second = SORTS[sort]
    rest = size - len(head)
    return head + repeated(first, rest // 2) + repeated(second, rest - rest // 2)


def asked(**members):
    """A line that asks the probe."""
    return json.dumps(members, separators=(",", ":"))


def passed_over(**members):
    """A line that the probe reads as it reads one with these members, and looks at none of them."""
    return asked(op="same", a="", b="", **{f"not_{name}": value for name, value in members.items()})


FIELDS = range(1, 12)
INFOBOX = (
    "<noinclude>{{Infobox|name=Example}}</noinclude><includeonly>'''{{{name|{{PAGENAME}}}}}'''"
    + "".join("{{#if:{{{f%d|}}}|; f%d: {{{f%d}}}}}" % (f, f, f) for f in FIELDS)
    + "[[Category:Boxes]]</includeonly>"
)
NOTE = "<includeonly>[[Category:Notes]]</includeonly>{{#if:{{{1|}}}|({{{1}}})}}"


def filled(page):
    """A page with an infobox that has each field, a note and a category."""
    fields = "".join("|f%d=v%d" % (f, f) for f in FIELDS)
    return "{{Infobox|name=%s%s}} [[Page 2]] {{Note|5}}[[Category:C3]]" % (page, fields)


def drawn(number, pages, draw):
    """The text of one of so many pages, which has some of the infobox's fields, a note, a link to another page and a category, as
    they are drawn."""
    fields = "".join(f"|f{field}=v{draw.randrange(100)}" for field in FIELDS if draw.randrange(2))
    link, note, category = draw.randrange(pages) + 1, draw.randrange(10), draw.randrange(5)
    return "{{Infobox|name=Page %d%s}} [[Page %d]] {{Note|%d}}[[Category:C%d]]" % (number, fields, link, note, category)


def deep(at):
    """A text that calls the next template within four arguments."""
    return "{{{a|{{{b|{{{c|{{{d|{{Deep %d}}}}}}}}}}}}}}" % (at + 1)


def drafted(page):
    """The text of a page that is drafted, and those of the templates that it includes, by their names."""
    if page == "infobox":
        return filled("Page 1"), {"Infobox": INFOBOX, "Note": NOTE}
    if page == "calls":
        return "".join("{{Small|%d}} " % n for n in range(1, 101)), {"Small": "({{{1}}})"}
    if page == "nesting":
        return "{{Nested 1}}", {f"Nested {n}": "{{Nested %d}}" % (n + 1) if n < 40 else "x" for n in range(1, 41)}
    return deep(0), {f"Deep {n}": deep(n) if n < 40 else "x" for n in range(1, 41)}


def many(templates):
    """The same of a page that includes so many templates with a short text."""
    return "".join("{{Many %d}} " % n for n in range(1, templates + 1)), {f"Many {n}": "x" for n in range(1, templates + 1)}


def substituted(sort):
    """A text of the sort that calls pages by `subst:`, the texts of those that are there by their names, and the names of those that
    are missing."""
    if sort == "call":
        return repeated(ORDINARY.replace("\n", " "), 10_000) + "{{subst:Note|5}}", {"Note": NOTE + repeated("x ", 1000)}, []
    if sort == "missing":
        names = [f"Missing {n}" for n in range(10_000)]
        return "".join("{{subst:%s}}" % it for it in names), {}, names
    if sort == "values":
        return "{{subst:Values|%s}}" % repeated("v", 1000), {"Values": "{{{1}}}" * 1000}, []
    return "{{subst:Chain 1}}", {f"Chain {n}": "{{subst:Chain %d}}" % (n + 1) if n < 40 else "x" for n in range(1, 41)}, []


def pages_of(page):
    """The member `pages` of a line that asks the probe to draft Page 1."""
    viewed, included = page
    return {"Page 1": viewed, **{f"Template:{name}": it for name, it in included.items()}}


def seen_of(page):
    """The member `seen` of such a line."""
    viewed, included = page
    return [["Page 1", "view", [1, viewed]], *[[f"Template:{name}", "include", [1, it]] for name, it in included.items()]]


TOKEN = "&token=%2B%5C"


def edit(title, content):
    """A line that edits a page."""
    return f"api {edit_body(title, content)}"


def edit_body(title, content):
    return f"action=edit&title={urllib.parse.quote_plus(title)}&text={urllib.parse.quote_plus(content)}{TOKEN}"


def get(query):
    return f"GET /api.php?{query} HTTP/1.1\r\nHost: localhost\r\n\r\n".encode()


def post(body):
    return f"POST /api.php HTTP/1.1\r\nHost: localhost\r\nContent-Length: {len(body)}\r\n\r\n{body}".encode()


def ten_templates(number):
    """The names of ten of twenty templates in a row, by the number of a page."""
    first = number % 11
    return [f"T{10 + first + n}" for n in range(10)]


def new_store(name):
    """Makes an empty store, as the program makes it, and opens it for rows."""
    with Running("wiki", "script", "--store", name) as run:
        run.end()
    database = sqlite3.connect(name)
    database.execute("PRAGMA synchronous = OFF")
    return database


def fill(name, pages, tables, rows, content="x"):
    """Makes a store of so many pages with one revision of the same text each, and in each of these tables the rows that a
    function gives for the number of a page; the first column is that number."""
    database = new_store(name)
    numbers, size = range(1, pages + 1), len(content)
    database.executemany("INSERT INTO revision VALUES (?, ?, 0, ?, ?, 0, ?)", ((n, n, n, size, content) for n in numbers))
    database.executemany("INSERT INTO page VALUES (?, 0, 'Page_' || ?, ?, ?)", ((n, n, n, size) for n in numbers))
    for table, make in zip(tables, rows):
        places = ", ".join("?" * (1 + len(make(1)[0])))
        database.executemany(f"INSERT INTO {table} VALUES ({places})", ((n, *row) for n in numbers for row in make(n)))
    database.commit()
    database.execute("PRAGMA wal_checkpoint(TRUNCATE)")
    database.close()


def generated(folder, pages):
    """The titles and the texts of so many generated pages, at most 10,000, behind the two templates that they include."""
    name = os.path.join(folder, "generated")
    with Running("wiki", "gen", "--store", name, "--pages", pages) as run:
        run.end()
    database = sqlite3.connect(name)
    found = database.execute("SELECT page_namespace, page_title, rev_text FROM page JOIN revision ON rev_id = page_latest ORDER BY page_id")
    texts = [(("Template:" if ns == 10 else "") + title.replace("_", " "), it) for ns, title, it in found]
    database.close()
    return texts
