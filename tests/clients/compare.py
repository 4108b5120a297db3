"""Makes what two wikis answered comparable, and tells each field that differs."""
import datetime
import difflib
import json
import re

# (MediaWiki's example of a moment, in an error)
EXAMPLE = "2014-09-18T12:34:56Z"
MOMENT = re.compile(r"\d{4}-\d\d-\d\dT\d\d:\d\d:\d\dZ")
DIGITS = re.compile(r"(20\d{12})(?!\d)")
PAGES = {"pageid", "pageids", "cmpageid", "blpageid", "talkid", "subjectid"}
REVISIONS = {"revid", "revids", "parentid", "lastrevid", "oldid", "newrevid", "oldrevid", "old_revid", "undo", "undoafter", "baserevid", "rvstartid", "rvendid", "current"}
OTHERS = {"rcid", "logid"}


class Names:
    """Names the pages and revisions of one run by their titles: `Ann`, and `Ann 2` for what the second save made of it."""

    def __init__(self, kept):
        self.pages, self.revisions, self.counts = {}, {}, {}
        for it in kept:
            self.learn(it["reply"])

    def learn(self, value):
        if isinstance(value, dict):
            if isinstance(value.get("title"), str) and isinstance(value.get("pageid"), int) and value["pageid"] > 0:
                self.pages[value["pageid"]] = value["title"]
                if value.get("newrevid") and value["newrevid"] not in self.revisions:
                    self.counts[value["title"]] = self.counts.get(value["title"], 0) + 1
                    self.revisions[value["newrevid"]] = f"{value['title']} {self.counts[value['title']]}"
            for it in value.values():
                self.learn(it)
        elif isinstance(value, list):
            for it in value:
                self.learn(it)

    def page(self, number):
        return f"<page {self.pages.get(number, '?')}>" if number > 0 else number

    def revision(self, number):
        return f"<revision {self.revisions.get(number, '?')}>" if number > 0 else number


def text(value):
    value = MOMENT.sub("<moment>", value)
    value = DIGITS.sub("<moment>", value)
    value = re.sub(r"^[0-9a-f]{40}\+\\$", "<token>", value)
    value = "<token>" if value == "+\\" else value
    value = re.sub(r"127\.0\.0\.1:\d+", "<host>", value)
    return re.sub(r"\[[0-9a-f]{16,24}\]", "<request>", value)


def number(names, key, value):
    if key in PAGES:
        return names.page(value)
    if key in REVISIONS:
        return names.revision(value)
    return "<number>" if key in OTHERS and value > 0 else value


def plain(names, value, key=""):
    """A reply with names in the place of its numbers and moments."""
    if isinstance(value, dict):
        if key in ("pages", "badrevids", "badpageids") and all(re.fullmatch(r"-?\d+", it) for it in value):
            name = names.revision if key == "badrevids" else names.page
            return {str(name(int(it))): plain(names, inner) for it, inner in value.items()}
        return {it: plain(names, inner, it) for it, inner in value.items()}
    if isinstance(value, list):
        found = [plain(names, it, key) for it in value]
        # (the order of the pages that were named is nobody's promise)
        return sorted(found, key=identity) if key == "pages" and all(isinstance(it, dict) for it in found) else found
    if isinstance(value, str):
        return text(value)
    if isinstance(value, int) and not isinstance(value, bool):
        return number(names, key, value)
    return value


def asked(names, words):
    """A request's parameters with names in the place of its numbers and moments."""
    found = {}
    for key, value in sorted(words.items()):
        if key.removeprefix("g") in PAGES | REVISIONS:
            value = "|".join(str(number(names, key.removeprefix("g"), int(it))) if it.isdigit() else it for it in value.split("|"))
        elif key.endswith("continue") and value:
            value = "<continue>" if key != "continue" else value
        found[key] = text(value)
    return found


def differences(one, other, path=""):
    """(path, what the one has, what the other has) of each field that differs; None where there is none."""
    if isinstance(one, dict) and isinstance(other, dict):
        for key in [*one, *(it for it in other if it not in one)]:
            inner = f"{path}.{key}" if path else key
            if key not in one:
                yield inner, None, other[key]
            elif key not in other:
                yield inner, one[key], None
            else:
                yield from differences(one[key], other[key], inner)
    elif isinstance(one, list) and isinstance(other, list):
        if one != other and sorted(map(packed, one)) == sorted(map(packed, other)):
            yield f"{path}[order]", [name_of(it) for it in one], [name_of(it) for it in other]
            return
        same = difflib.SequenceMatcher(None, [identity(it) for it in one], [identity(it) for it in other], autojunk=False)
        for what, a, b, c, d in same.get_opcodes():
            if what == "equal" or len(one) == len(other) == 1:
                for n in range(b - a):
                    yield from differences(one[a + n], other[c + n], f"{path}[{a + n}]")
            else:
                for it in one[a:b]:
                    yield f"{path}[]", it, None
                for it in other[c:d]:
                    yield f"{path}[]", None, it
    elif one != other or type(one) is not type(other):
        yield path, one, other


def packed(it):
    return json.dumps(it, sort_keys=True)


def name_of(it):
    """What is shown of an entry whose place differs."""
    return next((it[key] for key in ("title", "*", "category", "name", "revid") if key in it), it) if isinstance(it, dict) else it


def identity(it):
    """By what an entry of a list is the same in both."""
    if not isinstance(it, dict):
        return packed(it)
    return json.dumps([it.get(key) for key in ("title", "*", "name", "revid", "type", "id", "from", "category", "prefix")])


def without_continue(reply):
    """Where a list goes on is each wiki's own; that it does is compared."""
    if isinstance(reply, dict):
        for key in ("continue", "query-continue"):
            if isinstance(reply.get(key), dict):
                reply = {**reply, key: shape(reply[key])}
    return reply


def shape(value):
    if isinstance(value, dict):
        return {key: inner if key == "continue" else shape(inner) for key, inner in value.items()}
    return "<continue>"


def prepared(kept):
    """What a run kept, ready to be compared: a request's line, and its reply."""
    names = Names(kept)
    found = []
    for it in kept:
        if it.get("own"):
            continue
        words = asked(names, it["asked"])
        reply = without_continue(plain(names, it["reply"]))
        status = {"status": it["status"], "type": it["type"].lower().replace(" ", ""), "header": it.get("header")}
        found.append({"method": it["method"], "path": it["path"], "asked": words, "http": status, "reply": reply})
    return found


def told(run):
    """What a run's steps told, by their names."""
    names = Names(run["kept"])
    return {it["step"]: {key: plain(names, value) for key, value in it.items() if key != "step"} for it in map(json.loads, run["told"])}


def line(it):
    words = " ".join(f"{key}={json.dumps(value, ensure_ascii=False)}" for key, value in it["asked"].items() if (key, value) != ("format", "json"))
    return f"{it['method']} {words}"


def wrong_moments(run):
    """The moments in replies that aren't within a run."""
    ends = (datetime.datetime.fromtimestamp(at, datetime.timezone.utc) for at in (run["began"] - 2, run["ended"] + 2))
    first, last = (it.strftime("%Y-%m-%dT%H:%M:%SZ") for it in ends)
    return sorted({it for one in run["kept"] for it in MOMENT.findall(json.dumps(one["reply"])) if not first <= it <= last and it != EXAMPLE})
