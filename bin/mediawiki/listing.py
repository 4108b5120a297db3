"""What a list or a property gives, as a part of a reply or to generate pages."""
import dataclasses

from mediawiki.errors import error


@dataclasses.dataclass
class Listing:
    """The entries of a list with their titles, and the parameters by which it goes on."""

    entries: list
    titles: list
    more: dict


def given(query, name, listing, is_generator):
    """Hands a list to the generator, or puts it into the reply; then where it goes on."""
    if is_generator:
        return listing
    query.result[name] = listing.entries
    return listing.more


def cut(found, most, name_of):
    """The first so many of what was found, and where it goes on if there is more."""
    return found[:most], {"continue": name_of(found[most])} if len(found) > most else {}


def is_number(text):
    return text.isascii() and text.isdigit() and len(text) < 18


def title_place(values):
    """The page's number and the title at which a property goes on, both None where it begins."""
    if not values["continue"]:
        return None, None
    pieces = values["continue"].split("|", 2)
    if len(pieces) < 3 or not all(map(is_number, pieces[:2])):
        raise error("badcontinue")
    return int(pieces[0]), (int(pieces[1]), pieces[2])


def last_number(values):
    """The number behind the last bar, at which a list goes on; None where it begins."""
    if not values["continue"]:
        return None
    last = values["continue"].rpartition("|")[2]
    if not is_number(last):
        raise error("badcontinue")
    return int(last)
