"""Titles as pairs of a namespace's number and a key, by the rules of bin/moving.py."""
import urllib.parse

from mediawiki.errors import error
from moving import ILLEGAL, KEY_BYTES, NAMESPACES, normal, shown

CATEGORY, FILE = 14, 6
# What web/titles.js leaves as it is in an address.
UNQUOTED = "!~*'():"


def named(text, default=0):
    """The title that a text names, or in words why it names none."""
    return normal(text, default)


def wanted(text, default=0):
    """The title that a text names; an error where it names none."""
    found = normal(text, default)
    if isinstance(found, str):
        raise error("invalidtitle", value=text)
    return found


def page_wanted(text):
    """The title of a page that a text names; an error where it names none, or one that no page can have."""
    found = wanted(text)
    if found[0] < 0:
        raise error("pagecannotexist")
    return found


def why_not(text, reason):
    """Why a text names no title, in MediaWiki's words; `reason` is why in those of bin/moving.py."""
    if "is empty" in reason:
        return "The requested page title is empty or contains only the name of a namespace."
    if "bytes" in reason:
        return f"The requested page title is too long. It must be no longer than {KEY_BYTES} bytes in UTF-8 encoding."
    if found := ILLEGAL.search(text):
        tilde = "The requested page title contains invalid magic tilde sequence (<nowiki>~~~</nowiki>)."
        return tilde if found[0] == "~~~" else f'The requested page title contains invalid characters: "{found[0]}".'
    if {".", ".."} & set(text.split("/")):
        return "Title has relative path. Relative page titles (./, ../) are invalid, because they will often be unreachable when handled by user's browser."
    return "The requested page title contains an invalid colon at the beginning."


def part(text, namespace):
    """The beginning of a key, from a text that is the beginning of a title of the namespace."""
    if not text:
        return ""
    # (a letter behind it, so that a space or a slash at its end counts)
    found = normal(f"{NAMESPACES[namespace]}:{text}x" if namespace else f"{text}x")
    if isinstance(found, str) or found[0] != namespace or "#" in text:
        raise error("invalidtitle", value=text)
    return found[1][:-1]


def entry(title):
    """How a title is told."""
    return {"ns": title[0], "title": shown(*title)}


def associated(title):
    """The talk page of a page, or the page of a talk page."""
    return title[0] ^ 1, title[1]


def key_of(it):
    """The title of an entry of the wiki's."""
    name = NAMESPACES[it["ns"]]
    return it["ns"], (it["title"][len(name) + 1 :] if name else it["title"]).replace(" ", "_")


def address(base, title):
    """The address of a title among the pages of web/."""
    return f"{base}/#{urllib.parse.quote(shown(*title).replace(' ', '_'), safe=UNQUOTED)}"


def sort_key(prefix, title):
    """The bytes by which a category sorts a member."""
    text = title[1].replace("_", " ")
    return (f"{prefix}\n{text}" if prefix else text).encode()
