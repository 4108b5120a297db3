"""action=query: the modules that it asks for, its pages, and where it goes on."""
import dataclasses

from mediawiki import categories, changes, linking, lists, members, meta, pageset, props, revisions
from mediawiki.errors import error, unknown
from mediawiki.parameters import choices, flag, refused, split, text

# The modules that are here, by their kinds: for each its parameters' prefix, their table, and the function that answers.
MODULES = {
    "prop": {
        "info": ("in", props.INFO, props.info), "revisions": ("rv", revisions.TABLE, revisions.revisions),
        "links": ("pl", props.LINKS, props.links), "templates": ("tl", props.TEMPLATES, props.templates),
        "categories": ("cl", props.CATEGORIES, props.categories), "linkshere": ("lh", linking.HERE, linking.linkshere),
        "transcludedin": ("ti", linking.HERE, linking.transcludedin), "redirects": ("rd", linking.REDIRECTS, linking.redirects),
    },
    "list": {
        "allpages": ("ap", lists.ALLPAGES, lists.allpages), "backlinks": ("bl", linking.BACKLINKS, linking.backlinks),
        "embeddedin": ("ei", linking.EMBEDDEDIN, linking.embeddedin), "categorymembers": ("cm", members.TABLE, members.categorymembers),
        "recentchanges": ("rc", changes.TABLE, changes.recentchanges), "allcategories": ("ac", categories.TABLE, categories.allcategories),
    },
    "meta": {"siteinfo": ("si", meta.SITEINFO, meta.siteinfo), "userinfo": ("ui", meta.USERINFO, meta.userinfo), "tokens": ("", meta.TOKENS, meta.tokens)},
}
KINDS = ("prop", "list", "meta")
GENERATORS = {
    name: (kind, MODULES[kind][name])
    for kind, name in (
        ("list", "allpages"), ("list", "backlinks"), ("list", "embeddedin"), ("list", "categorymembers"), ("list", "recentchanges"),
        ("list", "allcategories"),
        ("prop", "links"), ("prop", "templates"), ("prop", "categories"), ("prop", "linkshere"), ("prop", "transcludedin"), ("prop", "redirects"),
    )
}
TABLE = {
    **{kind: choices(*MODULES[kind]) for kind in KINDS},
    "continue": text(), "rawcontinue": flag(), "indexpageids": flag(),
    **{it: refused("nothing is exported here; bin/export writes a store's pages") for it in ("export", "exportnowrap", "exportschema")},
    "iwurl": flag(), **pageset.TABLE,
}
WHY = "a module of MediaWiki's that this wiki hasn't, or none"


@dataclasses.dataclass
class Module:
    """A module that a query asks for."""

    kind: str
    name: str
    prefix: str
    table: dict
    answer: object

    def values(self, asked):
        return asked.read(self.name, self.table, self.prefix)


class Query:
    """What a query has of its answer so far."""

    def __init__(self, asked):
        self.asked, self.reader = asked, asked.reader
        self.given = asked.read("query", TABLE)
        self.modules = [Module(kind, name, *MODULES[kind][name]) for kind in KINDS for name in self.names(kind)]
        self.result, self.entries, self.set = {}, {}, pageset.PageSet(asked, self.tells_texts())
        # Where modules go on, by their names; where the generator does.
        self.more, self.generator_more = {}, {}
        self.generator = None

    def tells_texts(self):
        """Whether the texts of current revisions are asked for."""
        return "revisions" in self.given["prop"] and not self.given["redirects"] and "content" in split(self.asked.parameters.get("rvprop", ""))

    def names(self, kind):
        """The modules of a kind that are asked for; where none of them is here that is an error, but of properties, since the pages
        themselves are told."""
        names = self.given[kind]
        if kind != "prop" and not names and split(self.asked.parameters.get(kind, "")):
            raise unknown(kind, f'Unrecognized value for parameter "{kind}": {self.asked.parameters[kind]}. This is {WHY}.')
        return names

    # The pages

    def take_pages(self):
        given, source = self.given, pageset.source_of(self.given)
        if "titles" in source:
            self.set.take_titles(given["titles"])
        elif "pageids" in source:
            self.set.take_numbers(given["pageids"])
        elif "revids" in source:
            self.set.take_revisions(given["revids"])
        if "generator" in source:
            self.generate(given["generator"])
        if given["redirects"] and "revids" in source:
            self.asked.warn("query", 'Redirect resolution cannot be used together with the "revids" parameter. Any redirects the "revids" point to have not been resolved.')
        elif given["redirects"]:
            self.set.follow_redirects()
        self.told_pages()

    def told_pages(self):
        told, self.entries = self.set.told(self.given["indexpageids"])
        self.result.update(told)

    def generate(self, name):
        """Puts the pages that a generator lists in the place of those that were named."""
        if name not in GENERATORS:
            raise error("badgenerator", value=name)
        kind, (prefix, table, answer) = GENERATORS[name]
        self.generator = Module(kind, name, f"g{prefix}", table, answer)
        found = answer(self, self.generator.values(self.asked), True)
        named = self.set
        self.set = pageset.PageSet(self.asked)
        self.set.normalized, self.set.redirected = named.normalized, named.redirected
        self.set.take(it for it in found.titles if it[0] >= 0)
        self.generator_more = {f"g{prefix}{name}": value for name, value in found.more.items()}

    # Where it goes on

    def begin(self):
        """Leaves out the modules that have answered all, by `continue`. Whether the pages are still to be taken."""
        given, self.is_done = self.given["continue"] or "", False
        if not given:
            return True
        pieces = given.split("||")
        if len(pieces) != 2:
            raise error("badcontinue")
        self.is_done, skipped = pieces[0] == "-", pieces[1].split("|")
        self.left_out = {it.name for it in self.modules if it.name in skipped or (self.is_done and it.kind == "prop")}
        return not self.is_done

    left_out = frozenset()

    def continued(self):
        """What `continue` is in the reply, and whether all of this batch's pages are told."""
        found = {}
        props_more = {name: it for name, it in self.more.items() if name in MODULES["prop"]}
        for name, it in self.more.items():
            if name not in props_more:
                found.update(it)
        finished = [it.name for it in self.modules if it.name not in self.more]
        is_complete, keys = not props_more, ["-"]
        if props_more:
            for it in props_more.values():
                found.update(it)
            again = {it: value for it, value in self.asked.parameters.items() if self.generator and it == f"{self.generator.prefix}continue"}
            found.update(again)
            keys = list(again)
        elif self.generator_more:
            found.update(self.generator_more)
            finished = [it.name for it in self.modules if it.name in finished and it.kind != "prop"]
            keys = list(self.generator_more)
        if found or keys != ["-"]:
            found["continue"] = "|".join(keys) + "||" + "|".join(finished)
        return found, is_complete

    def raw_continued(self):
        """The same in the old form, by modules."""
        found = dict(self.more)
        if self.generator_more:
            found[self.generator.name] = {**found.get(self.generator.name, {}), **self.generator_more}
        return found

    # The answer

    def answer(self):
        if self.begin():
            self.take_pages()
        elif self.given["generator"] in GENERATORS:
            prefix, table, _ = GENERATORS[self.given["generator"]][1]
            self.asked.used.update(f"g{prefix}{it}" for it in table)
        for it in self.modules:
            if it.name in self.left_out:
                self.asked.used.update(it.prefix + name for name in it.table)
                continue
            more = it.answer(self, it.values(self.asked), False)
            if more:
                self.more[it.name] = {it.prefix + name: value for name, value in more.items()}
        return self.reply()

    def reply(self):
        reply = {}
        if self.given["rawcontinue"]:
            if more := self.raw_continued():
                reply["query-continue"] = more
        else:
            more, is_complete = self.continued()
            if is_complete:
                reply["batchcomplete"] = True
            if more:
                reply["continue"] = more
        if self.result:
            reply["query"] = self.result
        return reply

    def add(self, page, name, values):
        """Adds to the list of this name at a page's entry."""
        self.set.entry_of(self.entries, page).setdefault(name, []).extend(values)


def query(asked):
    return Query(asked).answer()
