"""The families over `wiki script`: what is done with a whole wiki of many pages, a line or a few at a time.

A wiki in memory is made by lines: its pages include ten templates each, and their refreshes are done. A wiki that is only read
stands in a file whose rows this script writes; so does one that is loaded, and what that takes has SQLite's part in it.

Beside what the whole lines take stands what is taken within the calls that the case is about, where callgrind finds them by
their names: a save, a claim and its end with the machine's runs between, an answer as a value, the lists and the index that a
load makes. The reading of a line, the writing of its reply and SQLite aren't in it."""

import os
import shutil
import tempfile

from made import edit, fill, generated, ten_templates
from measure import Ended, Running, lines_each, shown, table, within

# How many pages the wikis have.
PAGES = [int(it) for it in os.environ.get("BENCH_PAGES", "1000 100000").split()]
SCRIPT = ("wiki", "script")
CLAIM, GIVE_BACK, FINISH = (f"wk_core::wiki::Wiki::{it}" for it in ("claim", "give_back", "finish"))
DRAFT = ["wk_expand::machine::Machine::new", "wk_expand::machine::Machine::run"]
WITHIN = {
    "edits": ["wk_core::wiki::Wiki::save"],
    "claims": [CLAIM, GIVE_BACK],
    "drafts": [CLAIM, *DRAFT, GIVE_BACK],
    "refreshes": [CLAIM, *DRAFT, FINISH],
    "answers": ["wk_answer::reading::read_answer"],
    "stores": ["wk_vault::stored::StoredKeeper::apply"],
    "load": ["wk_index::index::Index::load", "wk_jobs::jobs::Jobs::load", "wk_revs::revs::Revs::load"],
}


class Script:
    """Lines for one wiki in memory, and its point behind them: the number of a claim's event is its ticket."""

    def __init__(self):
        self.lines = []
        self.point = 0

    def edit(self, title, content):
        """An edit that changes the page."""
        self.lines.append(edit(title, content))
        self.point += 1

    def job(self, reads, end):
        """A claim, so many reads, and `finish` or `giveback`."""
        self.point += 1
        self.lines += ["claim", *[f"read {self.point}"] * reads, f"{end} {self.point}"]
        self.point += 1

    def taken(self):
        """The lines since they were taken last."""
        lines, self.lines = self.lines, []
        return lines


def with_pages(pages):
    """A script that makes a wiki of so many pages which include ten templates each. No job is left."""
    script = Script()
    for number in range(10, 30):
        script.edit(f"Template:T{number}", "t")
        script.job(1, "finish")
    for number in range(1, pages + 1):
        script.edit(f"Page {number}", "x" + "".join("{{%s}}" % name for name in ten_templates(number)))
        script.job(11, "finish")
    return script


def measured(script, operation, prepared, few, many, counts):
    """What an operation takes: its seconds, or its instructions. `prepared(n)` adds to the script what n operations want before
    them, and `operation(n)` adds the n-th one."""

    def make(first, count):
        for number in range(first, first + count):
            operation(number)
        return script.taken()

    prepared(few + many)
    return lines_each(SCRIPT, script.taken(), make, few, many, counts)


def whole(case, pages, texts, counts, few, many):
    """The same of a case on a wiki of so many pages, whose pages are edited to the texts that are generated."""
    script = with_pages(pages)

    def change(number):
        page = number % pages + 1
        script.edit(f"Page {page}", texts[number % len(texts)] + f" {number}")

    def changes(count):
        for number in range(count):
            change(number)

    def nothing(_):
        pass

    for (name, content), reads in zip(texts.templates, (2, 1)):
        script.edit(name, content)
        script.job(reads, "finish")
    if case == "edits":
        return measured(script, change, nothing, few, many, counts)
    reads, end = {"claims": (0, "giveback"), "drafts": (3, "giveback"), "refreshes": (3, "finish")}[case]
    return measured(script, lambda _: script.job(reads, end), changes, few, many, counts)


class Texts(list):
    """The texts of generated pages, and the names and texts of the templates that they include."""

    def __init__(self, pages):
        folder = tempfile.mkdtemp(prefix="bench-")
        found = generated(folder, pages)
        shutil.rmtree(folder)
        self.templates = found[:2]
        super().__init__(content for _, content in found[2:])


def operations(*cases):
    """What is done with a wiki in memory. Of a claim, a draft and a refresh each line counts: the claim's, those of the three
    reads, and the end's; a draft and a claim are given back."""
    row = table(("case", 10), ("pages", 9), ("us/each", 12), ("each/second", 12), ("instructions/each", 18), ("within", 12))
    texts = Texts(500)
    for case in cases:
        for pages in PAGES:
            seconds = whole(case, pages, texts, None, 50, min(pages // 2, 5000))
            counted = whole(case, pages, texts, (), 10, 100)
            inner = whole(case, pages, texts, within(*WITHIN[case]), 10, 100)
            row(
                case, pages, shown(None if seconds is None else 1e6 * seconds, ".3f"),
                shown(None if not seconds else 1 / seconds, ".0f"), shown(counted, ".0f"), shown(inner or None, ".0f"),
            )


def stores():
    """What the store in memory takes of a save, and of a refresh."""
    row = table(("store", 10), ("pages", 9), ("within", 12))
    texts = Texts(500)
    for case in ("edits", "refreshes"):
        for pages in PAGES:
            row(case, pages, shown(whole(case, pages, texts, within(*WITHIN["stores"]), 10, 100) or None, ".0f"))


def ten_in_a_row(pages, namespace):
    """What gives a page the rows of ten titles in a row, of as many as there are pages."""

    def rows(number):
        return [(0, namespace, f"T{(number + n) % pages}") for n in range(10)]

    return rows


def ten_categories(pages):
    def rows(number):
        return [(f"T{(number + n) % pages}", f"K{number}", "") for n in range(10)]

    return rows


def of_twenty(number):
    return [(0, 10, name) for name in ten_templates(number)]


def asked_of(row, case, name, pages, ask, before=()):
    """A row of a case that asks one thing of a wiki in a file again and again."""
    words = (*SCRIPT, "--store", name)
    before = [*before, ask]
    seconds = lines_each(words, before, lambda _, n: [ask] * n, 10, 1010)
    counted = lines_each(words, before, lambda _, n: [ask] * n, 10, 60, ())
    inner = lines_each(words, before, lambda _, n: [ask] * n, 10, 60, within(*WITHIN["answers"]))
    row(case, pages, shown(None if seconds is None else 1e6 * seconds, ".3f"), shown(counted, ".0f"), shown(inner or None, ".0f"))


def stored(pages, links, rows, work):
    """Does the work over a store in a file of a new folder, with these rows."""
    folder = tempfile.mkdtemp(prefix="bench-", dir=os.environ.get("BENCH_FOLDER"))
    name = os.path.join(folder, "wiki")
    try:
        fill(name, pages, links, rows)
        work(name)
    finally:
        shutil.rmtree(folder)


def lists():
    """The pages that use a title and the members of a category, ten of each, where each page has ten rows; and the first 300 of
    those that include a template which most pages do."""
    row = table(("case", 10), ("pages", 9), ("us/each", 12), ("instructions/each", 18), ("within", 12))
    for pages in PAGES:
        for case, links, rows, ask in (
            ("users", "templatelinks", ten_in_a_row(pages, 10), "list=embeddedin&eititle=Template:T5&eilimit=10"),
            ("members", "categorylinks", ten_categories(pages), "list=categorymembers&cmtitle=Category:T5&cmlimit=10"),
            ("users 300", "templatelinks", of_twenty, "list=embeddedin&eititle=Template:T20&eilimit=300"),
        ):
            stored(pages, [links], [rows], lambda name: asked_of(row, case, name, pages, f"api action=query&{ask}"))


ASKED = {
    "parse": "api action=parse&page=Page+1",
    "expand": "api action=expandtemplates&title=Page+1&text=%7B%7BInfobox%7Cname%3DPage+1%7Cf1%3Dv1%7Cf4%3Dv40%7Cf11%3Dv99%7D%7D+"
    "%5B%5BPage+2%5D%5D+%7B%7BNote%7C5%7D%7D%5B%5BCategory%3AC3%5D%5D",
    "backlinks": "api action=query&list=backlinks&bltitle=Target&bllimit=500",
    "embedded": "api action=query&list=embeddedin&eititle=Template:Other&eilimit=500",
    "members": "api action=query&list=categorymembers&cmtitle=Category:Joined&cmlimit=500",
    "changes": "api action=query&list=recentchanges&rclimit=500",
    "revisions": "api action=query&prop=revisions&titles=Often&rvlimit=500",
}


def answers():
    """What a wiki of so many pages is asked, with lists of 500: each page links to one page, includes one template and is in one
    category, and one page has 600 revisions."""
    row = table(("asked", 10), ("pages", 9), ("us/each", 12), ("instructions/each", 18), ("within", 12))
    texts = Texts(1)
    before = [edit(*it) for it in texts.templates] + [edit("Page 1", texts[0])]
    before += [edit("Often", f"x{number}") for number in range(600)]
    links = ["pagelinks", "templatelinks", "categorylinks"]
    rows = [lambda _: [(0, 0, "Target")], lambda _: [(0, 10, "Other")], lambda n: [("Joined", f"Page {n}", "")]]
    for pages in PAGES:

        def work(name):
            for case, ask in ASKED.items():
                asked_of(row, case, name, pages, ask, before)

        stored(pages, links, rows, work)


def opened(name, counts=None):
    """What opening a wiki over the file takes up to its first answer, and the process's peak of memory."""
    try:
        with Running(*SCRIPT, "--store", name, counts=counts, from_start=True) as run:
            run.ask(["api action=query&meta=siteinfo"])
            return run.so_far(), run.peak()
    except (Ended, FileNotFoundError):
        return None, None


def load():
    """A wiki that is opened over a file of pages with ten link rows each, up to its first answer, less one of 100 pages."""
    row = table(
        ("case", 10), ("pages", 9), ("seconds", 10), ("us/page", 12), ("instructions/page", 18), ("within", 12), ("bytes/page", 12)
    )

    def costs(name):
        seconds, peak = opened(name)
        return seconds, peak, opened(name, ())[0], opened(name, within(*WITHIN["load"]))[0]

    found = {}
    for pages in (100, *PAGES):
        stored(pages, ["templatelinks"], [of_twenty], lambda name: found.update({pages: costs(name)}))
    for pages in PAGES:
        a_page = [None if None in pair else (pair[1] - pair[0]) / (pages - 100) for pair in zip(found[100], found[pages])]
        seconds, peak, counted, inner = a_page
        row(
            "load", pages, f"{found[pages][0]:.3f}", f"{1e6 * seconds:.3f}", shown(counted, ".0f"), shown(inner or None, ".0f"),
            f"{peak:.0f}",
        )


def linked(number, word):
    return "{{T|%s}} stands before [[P%d]], the next page of this wiki." % (word, number + 1)


def script():
    """Lines of a script in memory: pages are made, which include a template and link to the next page; and then each is changed,
    or parsed, or refreshed by four lines: the claim, its two reads, and the end."""
    row = table(("script", 10), ("lines", 9), ("us/line", 12), ("lines/second", 12), ("instructions/line", 18))
    few, many = 1000, int(os.environ.get("BENCH_LINES", "100000"))
    for case, per in (("new", 1), ("changes", 1), ("parses", 1), ("refreshes", 4)):
        seconds = of_script(case, few, many, None)
        counted = of_script(case, 100, 1000, ())
        row(
            case, many * per, shown(None if seconds is None else 1e6 * seconds / per, ".3f"),
            shown(None if not seconds else per / seconds, ".0f"), shown(None if counted is None else counted / per, ".0f"),
        )


def of_script(case, few, many, counts):
    """What a page's lines take in such a script."""
    lines = Script()

    def page(number, word):
        lines.edit(f"P{number}", linked(number, word))

    lines.edit("Template:T", "The page {{{1}}}")
    lines.job(1, "finish")
    if case != "new":
        for number in range(few + many):
            page(number, "one")
    work = {
        "new": lambda number: page(number, "one"),
        "changes": lambda number: page(number, "two"),
        "parses": lambda number: lines.lines.append(f"api action=parse&page=P{number}"),
        "refreshes": lambda _: lines.job(2, "finish"),
    }[case]
    return measured(lines, work, lambda _: None, few, many, counts)


FAMILIES = {
    "load": load,
    "edits": lambda: operations("edits"),
    "claims": lambda: operations("claims"),
    "refreshes": lambda: operations("drafts", "refreshes"),
    "lists": lists,
    "answers": answers,
    "stores": stores,
    "script": script,
}
