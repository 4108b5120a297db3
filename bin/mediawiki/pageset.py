"""The pages that a query is about: those of `titles`, `pageids` or `revids`, or those that a generator lists."""
from mediawiki.errors import ApiError
from mediawiki.pages import TEXTS_AT_ONCE
from mediawiki.parameters import flag, lost, numbers, text, texts
from mediawiki.shapes import ByKey
from mediawiki.titles import entry, key_of, named, why_not
from moving import shown

TABLE = {
    "titles": texts(), "pageids": numbers(), "revids": numbers(), "generator": text(), "redirects": flag(),
    "converttitles": lost("titles have no variants here"),
}
SOURCES = ("titles", "pageids", "revids", "generator")


class PageSet:
    """The pages, and what is told of how they were named."""

    def __init__(self, asked, with_text=False):
        # (with the texts at once, where few pages are asked for them)
        self.asked, self.reader, self.with_text = asked, asked.reader, with_text
        self.normalized, self.redirected = [], []
        self.invalid, self.special, self.missing_numbers, self.bad_revisions = [], [], [], []
        # The pages in their order, and the revisions that were named, each with its page's title.
        self.pages, self.revisions = [], {}

    # Where the pages come from

    def take_titles(self, given):
        titles = []
        for it in given:
            title = named(it)
            if isinstance(title, str):
                self.invalid.append((it, title))
                continue
            if shown(*title) != it:
                self.normalized.append({"fromencoded": False, "from": it, "to": shown(*title)})
            (self.special if title[0] < 0 else titles).append(title)
        self.take(sorted(titles))

    def take_numbers(self, given):
        found = {it: self.reader.title_of(it) if it > 0 else None for it in given}
        self.take([it for it in found.values() if it])
        there = {it.title for it in self.pages if it.current}
        self.missing_numbers += [it for it, title in found.items() if title not in there]
        self.pages = self.good

    def take_revisions(self, given):
        places = self.reader.places_of(given)
        self.take([key_of(it) for it in places.values()])
        there = {it.title for it in self.pages if it.current}
        for number in given:
            it = places.get(number)
            if it and key_of(it) in there and it["type"] != "delete":
                self.revisions[number] = key_of(it)
            else:
                self.bad_revisions.append(number)
        named_titles = set(self.revisions.values())
        self.pages = [it for it in self.good if it.title in named_titles]

    def take(self, titles):
        """Reads the pages of titles, each once."""
        found = list(dict.fromkeys(titles))
        self.pages = self.reader.current(found, self.with_text and len(found) <= TEXTS_AT_ONCE)

    def follow_redirects(self):
        """Puts the target in the place of each page that redirects, and tells both."""
        seen = {it.title for it in self.pages}
        while True:
            targets = self.reader.targets([(it.number, it.title) for it in self.pages if it.current])
            turned = {it.title: targets[it.number] for it in self.pages if it.current and targets[it.number]}
            turned = {title: target for title, target in turned.items() if target != title}
            if not turned:
                return
            self.redirected += [{"from": shown(*title), "to": shown(*target)} for title, target in turned.items()]
            new = [it for it in dict.fromkeys(turned.values()) if it not in seen]
            seen.update(new)
            self.pages = [it for it in self.pages if it.title not in turned] + self.reader.current([it for it in new if it[0] >= 0])
            self.special += [it for it in new if it[0] < 0]
            if not new:
                return

    # What is told

    @property
    def good(self):
        """The pages that exist, by rising numbers."""
        return sorted((it for it in self.pages if it.current), key=lambda it: it.number)

    def told(self, is_listing_numbers):
        """What a query says of its pages, and for each page of it the entry that modules add to."""
        found = {}
        for name, it in (("normalized", self.normalized), ("redirects", self.redirected)):
            if it:
                found[name] = it
        if self.bad_revisions:
            found["badrevids"] = {it: {"revid": it, "missing": True} for it in self.bad_revisions}
        entries = self.entries()
        if entries and is_listing_numbers:
            found["pageids"] = [str(it) for it in entries]
        if entries:
            found["pages"] = ByKey(entries)
        return found, entries

    def entries(self):
        """The entries of all that was named, each by its number; what has none gets one below zero."""
        invalid = [{"title": text, "invalidreason": why_not(text, reason), "invalid": True} for text, reason in self.invalid]
        special = [{**entry(it), "special": True, "missing": True} for it in self.special]
        missing = [{**entry(it.title), "missing": True} for it in self.pages if not it.current]
        numbered = {-1 - at: it for at, it in enumerate([*invalid, *special, *missing])}
        first = len(invalid) + len(special)
        order = [*range(first, len(numbered)), *range(len(invalid))]
        found = {-1 - at: numbered[-1 - at] for at in order}
        found.update({it: {"pageid": it, "missing": True} for it in self.missing_numbers})
        found.update({-1 - at: numbered[-1 - at] for at in range(len(invalid), first)})
        found.update({it.number: {"pageid": it.number, **entry(it.title)} for it in self.pages if it.current})
        self.numbers = {it.title: -1 - first - at for at, it in enumerate(it for it in self.pages if not it.current)}
        self.numbers.update({it.title: it.number for it in self.good})
        return found

    def entry_of(self, entries, page):
        """The entry of a page."""
        return entries[self.numbers[page.title]]


def source_of(given):
    """Which of the four ways of naming pages a request takes; two are an error."""
    found = [it for it in SOURCES if given[it] is not None]
    if len(found) > 1 and set(found) != {"generator", found[0]}:
        raise ApiError("multisource", f'The "{found[1]}" parameter cannot be used with "{found[0]}".')
    return found
