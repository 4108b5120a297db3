"""The families over `wk_probe`: texts that are read, numerals, outputs, drafts of many reads, and connections in pieces.

What a line takes beyond one that is read alike and passed over is what is wanted, so that the JSON of the line falls out. Where
the answer is long its making and writing is in it, as the tables say. `within` counts the instructions within the case's own
functions alone, where callgrind finds them by their names: a build may have taken one into its caller."""

import os

from made import SORTS, asked, drafted, many, pages_of, passed_over, seen_of, text
from measure import Ended, Running, lines_each, shown, table, within

# How many bytes are read in all at each size, for the seconds.
ALL = int(os.environ.get("BENCH_BYTES", str(1 << 24)))
SIZES = [int(it) for it in os.environ.get("BENCH_SIZES", "65536 524288 2097152").split()]
PROBE = ("wk_probe",)
WITHIN = {
    "select": ["wk_lex::selection::select"],
    "atoms": [f"wk_probe::atoms::{it}" for it in ("atoms_value", "atom_value", "selected")],
    "tree": ["wk_tree::parsed::parse"],
    "links": ["wk_links::scan::links"],
    "same": ["wk_decimal::comparison::same"],
    "append": ["wk_out::output::Out::append"],
    "resume": ["wk_probe::expansions::drafted"],
    "anew": ["wk_expand::drafting::draft"],
    "http": ["wk_probe::wire::http_value", "wk_probe::wire::bytes_of"],
}


def beyond(line, other, few, more, counts=None):
    """What a line takes beyond another one: its instructions where these are counted, else its seconds."""
    costs = [lines_each(PROBE, [it], lambda _, n, it=it: [it] * n, few, more, counts) for it in (line, other)]
    return None if None in costs else costs[0] - costs[1]


def inside(case, line):
    """The instructions of a line within the case's functions; None where none of these names was met."""
    return lines_each(PROBE, [line], lambda _, n: [line] * n, 1, 3, within(*WITHIN[case])) or None


def peak(line):
    with Running(*PROBE) as run:
        run.ask([line])
        return run.peak()


def reading(case, sort, size):
    """A line that reads a text of the sort, and one that doesn't. A tree is parsed for a draft that stops at its first node."""
    content = text(sort, size)
    if case == "select":
        return asked(op=case, mode="include", text=content), asked(op=case, mode="view", text=content)
    if case == "links":
        return asked(op=case, runs=[[content, False]]), passed_over(runs=[[content, False]])
    if case == "atoms":
        return asked(op=case, mode="view", text=content), passed_over(mode="view", text=content)
    members = {"page": "P", "seen": [], "text": "{{x}}" + content}
    return asked(op="expand", **members), passed_over(**members)


def rows_of(case, label, row, pair, size):
    """A row of a case at a size: a line's time beyond the other's, and its instructions a byte."""
    line, other = pair
    lines = max(2, ALL // size)
    seconds = beyond(line, other, 1, 1 + lines)
    counted = beyond(line, other, 1, 3, ())
    inner = inside(case, line)
    row(
        case, label, size, lines, shown(None if seconds is None else 1000 * seconds, ".3f"),
        shown(None if not seconds or seconds <= 0 else size / seconds / 1e6, ".1f"),
        shown(None if counted is None else counted / size, ".1f"),
        shown(None if inner is None else inner / size, ".1f"), f"{peak(line) / 1e6:.1f}",
    )


def texts(case, sorts):
    row = table(
        ("case", 8), ("text", 13), ("bytes", 9), ("lines", 7), ("ms/line", 10), ("MB/s", 10), ("instructions/byte", 18),
        ("within/byte", 12), ("peak MB", 9),
    )
    for sort in sorts:
        for size in SIZES:
            rows_of(case, sort, row, reading(case, sort, size), size)


def numerals():
    """Two numerals of so many bytes that are one number are compared. A byte is one of both."""
    row = table(
        ("case", 8), ("text", 13), ("bytes", 9), ("lines", 7), ("ms/line", 10), ("MB/s", 10), ("instructions/byte", 18),
        ("within/byte", 12), ("peak MB", 9),
    )
    for size in SIZES[:1] + [1 << 20]:
        members = {"a": "+" + "7" * (size - 1), "b": "0" + "7" * (size - 1)}
        rows_of("same", "equal", row, (asked(op="same", **members), passed_over(**members)), size)


def outputs():
    """An output to which others are appended, each a short plain and a short sealed run: a draft of as many calls of `#if`."""
    row = table(("case", 8), ("times", 9), ("within/time", 12), ("peak MB", 9))
    for times in (5000, 50_000):
        line = asked(op="expand", page="P", seen=[], text="{{#if:x|a page, <nowiki>a</nowiki>}}" * times)
        inner = inside("append", line)
        row("append", times, shown(None if inner is None else inner / times, ".0f"), f"{peak(line) / 1e6:.1f}")


def resumed():
    """A page with so many templates, whose texts are given one at a time: to one machine, and to a draft that begins anew. From
    both a draft with all texts at hand is taken away, but not from what is within."""
    row = table(("case", 8), ("templates", 9), ("us", 12), ("instructions", 15), ("within", 15))
    for case in ("resume", "anew"):
        for templates in (125, 1000):
            page = many(templates)
            at_once = asked(op="expand", page="Page 1", seen=seen_of(page))
            line = asked(op="expand", page="Page 1", seen=seen_of(page), resume=True)
            if case == "anew":
                line = asked(op="expand", page="Page 1", pages=pages_of(page))
            seconds, counted = beyond(line, at_once, 1, 11), beyond(line, at_once, 1, 3, ())
            row(
                case, templates, shown(None if seconds is None else 1e6 * seconds, ".1f"), shown(counted, ".0f"),
                shown(inside(case, line), ".0f"),
            )


def stack():
    """The page that opens the most nodes within each other, on a stack of 128 KiB."""
    try:
        with Running(*PROBE, stack=128) as run:
            said = run.ask([asked(op="expand", page="Page 1", seen=seen_of(drafted("deepest")))])
    except Ended:
        said = 0
    print(f"\nstack 128 KiB: {said} bytes answered", flush=True)


MESSAGE = (
    "POST /api.php HTTP/1.1\r\nHost: localhost\r\nContent-Length: 39\r\n\r\naction=edit&title=A&text=x&token=%2B%5C"
)


def stream_of(stream, size):
    if stream == "messages":
        return MESSAGE * size
    if stream == "head":
        return "GET /api.php HTTP/1.1\r\nA: " + "a" * size + "\r\n\r\n"
    return f"POST /api.php HTTP/1.1\r\nContent-Length: {size}\r\n\r\n" + "a" * size


def connections():
    """Connections that come in pieces. What is answered has each message's parts, its head's fields aside."""
    row = table(
        ("case", 8), ("stream", 9), ("size", 9), ("piece", 9), ("ms", 10), ("instructions", 15), ("within", 15), ("a byte", 8),
        ("peak MB", 9),
    )
    for stream, sizes, pieces in (
        ("messages", (1000, 10_000), (1, 1024, 16_777_216)), ("head", (6000, 60_000), (1, 1024)), ("body", (1 << 20, 1 << 22), (1024,))
    ):
        for size in sizes:
            for piece in pieces:
                connection(row, stream, size, piece)


def connection(row, stream, size, piece):
    content = stream_of(stream, size)
    cut = [content[at : at + piece] for at in range(0, len(content), piece)]
    line, other = asked(op="http", pieces=cut), passed_over(pieces=cut)
    seconds, counted, inner = beyond(line, other, 1, 5), beyond(line, other, 1, 3, ()), inside("http", line)
    row(
        "http", stream, size, piece, shown(None if seconds is None else 1000 * seconds, ".3f"), shown(counted, ".0f"),
        shown(inner, ".0f"), shown(None if inner is None else inner / len(content), ".1f"), f"{peak(line) / 1e6:.1f}",
    )


FAMILIES = {
    "select": lambda: texts("select", ("ordinary", "parts", "angles")),
    "atoms": lambda: texts("atoms", ("ordinary", "angles", "open_comment", "comments", "elements", "open_tags", "braces")),
    "tree": lambda: texts("tree", SORTS),
    "links": lambda: texts("links", ("ordinary", "open_links", "labels", "long_label")),
    "same": numerals,
    "append": outputs,
    "resume": resumed,
    "stack": stack,
    "http": connections,
}
