"""What in the texts of an export means something else in this wiki, counted by kind for bin/import: names of namespaces in the
old wiki's language, links whose first letter isn't made a capital here, tags and functions that aren't there."""
import collections
import re

from moving import NAMESPACES, NUMBERS

# Where a link, a call or a tag begins, with what names it.
PLACES = re.compile(r"(\[\[|\{\{)[ _:]*([^\[\]{}|<>\n]*)|<([A-Za-z][A-Za-z0-9]*)")
FUNCTIONS = {"#if", "#ifeq", "#ifexist", "#iferror", "#switch"}
# Tags that are read here, and HTML's, which is plain text for MediaWiki's templates too.
TAGS = set(
    "nowiki pre noinclude includeonly onlyinclude abbr b bdi bdo big blockquote br caption center cite code col colgroup data dd del dfn"
    " div dl dt em font h1 h2 h3 h4 h5 h6 hr i img ins kbd li link mark meta ol p q rb rp rt rtc ruby s samp small span strike strong"
    " sub sup table tbody td tfoot th thead time tr tt u ul var wbr".split()
)
# Functions and variables without a `#`, which only MediaWiki knows.
WORDS = set(
    "lc uc lcfirst ucfirst ns nse urlencode anchorencode fullurl fullurle localurl localurle canonicalurl filepath formatnum padleft"
    " padright plural grammar gender bidi int msg raw msgnw subst safesubst".split()
)
VARIABLES = set(
    "DEFAULTSORT DISPLAYTITLE SITENAME SERVER SERVERNAME SCRIPTPATH CURRENTVERSION PAGENAMEE FULLPAGENAMEE NAMESPACEE NAMESPACENUMBER"
    " BASEPAGENAME BASEPAGENAMEE ROOTPAGENAME SUBPAGENAME SUBPAGENAMEE TALKPAGENAME SUBJECTPAGENAME ARTICLEPAGENAME TALKSPACE"
    " SUBJECTSPACE ARTICLESPACE NUMBEROFPAGES NUMBEROFARTICLES NUMBEROFFILES NUMBEROFUSERS NUMBEROFEDITS PAGESINCATEGORY PAGESIZE"
    " PROTECTIONLEVEL REVISIONID REVISIONDAY REVISIONMONTH REVISIONYEAR REVISIONTIMESTAMP REVISIONUSER CURRENTYEAR CURRENTMONTH"
    " CURRENTMONTHNAME CURRENTDAY CURRENTDAY2 CURRENTDAYNAME CURRENTTIME CURRENTHOUR CURRENTWEEK CURRENTTIMESTAMP LOCALYEAR"
    " LOCALMONTH LOCALDAY LOCALTIME LOCALTIMESTAMP CONTENTLANGUAGE DIRECTIONMARK =".split()
)
# How many names of a kind are told, and how many are counted one by one.
NAMES_TOLD, NAMES_HELD = 12, 1000


def count(names, name):
    names[name if name in names or len(names) < NAMES_HELD else "others"] += 1


class Told:
    """What was found in all texts so far."""

    def __init__(self):
        self.local = re.compile("(?!)")
        self.names, self.tags, self.functions, self.redirects = (collections.Counter() for _ in range(4))
        self.small = 0

    def site(self, site):
        """The names of namespaces that only the old wiki knows."""
        own = {it.replace(" ", "_").lower() for number, it in site.names.items() if it and (number not in NAMESPACES or it.replace(" ", "_").lower() not in NUMBERS)}
        if own:
            self.local = re.compile("(" + "|".join(re.escape(it).replace("_", "[ _]") for it in sorted(own)) + r")[ _]*:[ _]*", re.I)

    def text(self, text, is_redirect):
        if is_redirect and (found := re.match(r"\s*#(\w+)", text)) and found[1].upper() != "REDIRECT":
            count(self.redirects, f"#{found[1][:40]}")
        for found in PLACES.finditer(text):
            opens, name, tag = found.groups()
            if tag:
                if tag.lower() not in TAGS:
                    count(self.tags, f"<{tag.lower()[:40]}>")
            elif name:
                self.place(opens, name)

    def place(self, opens, name):
        if opens == "{{" and self.is_function(name):
            return
        if found := self.local.match(name):
            count(self.names, f"{opens}{found[1]}:")
            name = name[found.end() :]
        elif ":" in name:
            before, _, rest = name.partition(":")
            if before.strip(" _").lower().replace(" ", "_") in NUMBERS:
                name = rest.lstrip(" _")
        first = name[:1]
        if first and not first.isascii() and first.upper() != first:
            self.small += 1

    def is_function(self, name):
        """Whether the call is one of a function or a variable; it is counted where it isn't ours."""
        before, colon, _ = name.partition(":")
        before = before.strip()
        if before.startswith("#"):
            if before.lower() not in FUNCTIONS:
                count(self.functions, "{{" + before.lower()[:40] + ":")
            return True
        if before in VARIABLES or (colon and before.lower() in WORDS):
            count(self.functions, "{{" + (f"{before}}}}}" if not colon else f"{before}:"))
            return True
        return False

    def lines(self):
        """What is told at the end: each kind with its number, and then its names with theirs."""
        kinds = {
            "names of namespaces in the old wiki's language": self.names, "redirects in the old wiki's language": self.redirects,
            "tags that aren't here": self.tags, "functions and variables that aren't here": self.functions,
        }
        for kind, names in kinds.items():
            if names:
                more = len(names) - NAMES_TOLD
                listed = [f"{name} {count}" for name, count in sorted(names.items(), key=lambda it: (-it[1], it[0]))[:NAMES_TOLD]]
                yield kind, sum(names.values()), ", ".join(listed + [f"and {more} more"] * (more > 0))
        if self.small:
            yield "small first letters past ASCII", self.small, ""
