"""The forms that a parameter can have: a table for each module has its parameters by their names without the module's prefix."""
import calendar
import dataclasses
import email.utils
import re
import time

from mediawiki.errors import error, unknown
from moving import NAMESPACES

# How many values a parameter can have, and the greatest limit.
VALUES, MOST = 50, 500
SEPARATOR = "\x1f"


@dataclasses.dataclass(frozen=True)
class Parameter:
    """A parameter: how its text is read, what it is where it isn't given, and whether it has several values. `lost` says what is
    told where it is given and nothing comes of it; `refused` why it can't be given."""

    read: object
    default: object = None
    is_multi: bool = False
    lost: str = ""
    refused: str = ""
    # Of a choice: its values.
    values: tuple = ()


def split(text):
    """The values of a parameter that has several, each once."""
    if not text:
        return []
    pieces = text[1:].split(SEPARATOR) if text.startswith(SEPARATOR) else text.split("|")
    return list(dict.fromkeys(pieces))


def number_of(text, name):
    if not re.fullmatch(r"[+-]?[0-9]{1,18}", text):
        raise error("badinteger", name=name, value=text)
    return int(text)


def moment_of(text, name):
    """The seconds since 1970 of a moment in one of MediaWiki's forms."""
    text = text.strip()
    if text in ("now", ""):
        return int(time.time())
    if re.fullmatch(r"[0-9]{1,13}", text):
        return int(text)
    if found := re.fullmatch(r"(\d{4})-?(\d\d)-?(\d\d)[T ]?(\d\d):?(\d\d):?(\d\d)(?:\.\d+)?(?:Z|\+00(?::?00)?| GMT)?", text, re.ASCII):
        year, month, day, hour, minute, second = map(int, found.groups())
        if 1 <= month <= 12 and 1 <= day <= calendar.monthrange(max(year, 1), month)[1] and hour < 24 and minute < 60 and second < 60:
            return calendar.timegm((year, month, day, hour, minute, second))
    parsed = email.utils.parsedate_tz(text) if re.match(r"[A-Za-z]{3}, ", text) else None
    if parsed is None:
        raise error("badtimestamp", name=name, value=text)
    return email.utils.mktime_tz(parsed)


def text(default=None):
    return Parameter(lambda asked, name, given, it: given, default)


def texts():
    return Parameter(lambda asked, name, given, it: given, is_multi=True)


def flag():
    """Set where it is given, whatever its value."""
    return Parameter(lambda asked, name, given, it: True, False)


def number(default=None, least=None):
    def read(asked, name, given, it):
        value = number_of(given, name)
        if least is not None and value < least:
            raise error("outofrange", name=name, how="less than", bound=least)
        return value

    return Parameter(read, default)


def numbers():
    return Parameter(lambda asked, name, given, it: number_of(given, name), is_multi=True)


def limit(default=10):
    """From 1 to 500, or `max`; one that is out of that is told, and set to its bound."""

    def read(asked, name, given, it):
        return asked.within(name, given if given == "max" else number_of(given, name), MOST)

    return Parameter(read, default)


def moment():
    return Parameter(lambda asked, name, given, it: moment_of(given, name))


def choice(*values, default=None):
    def read(asked, name, given, it):
        if given not in values:
            raise error("badvalue", name=name, value=given)
        return given

    return Parameter(read, default, values=values)


def choices(*values, default=""):
    """Several of some values; others, also those of MediaWiki's that aren't here, are told and passed over."""
    return Parameter(lambda asked, name, given, it: given if given in values else None, None if default is None else split(default), True, values=values)


def namespaces(most=True):
    """Numbers of namespaces, or one."""

    def read(asked, name, given, it):
        if re.fullmatch(r"-?[0-9]{1,4}", given) and int(given) in NAMESPACES:
            return int(given)
        if it.is_multi:
            return None
        raise error("badvalue", name=name, value=given)

    return Parameter(read, None if most else 0, most)


def lost(why):
    """A parameter that is taken, and of which nothing comes."""
    return Parameter(lambda asked, name, given, it: None, lost=why)


def refused(why):
    """A parameter that MediaWiki has, and that would change the reply."""
    return Parameter(lambda asked, name, given, it: None, refused=why)


class Given:
    """The parameters of a request, and what is told of them."""

    def __init__(self, parameters, in_address=()):
        # (the parameters, and the names of those that the address has)
        self.parameters, self.in_address, self.used, self.module = parameters, in_address, set(), "main"
        # What is told, by modules, and the limits that were asked for as `max`.
        self.warnings, self.limits = {}, {}

    def within(self, name, value, most):
        """A limit: `max` is told, and one out of its bounds too, which is set to its bound."""
        if value == "max":
            self.limits[self.module] = most
            return most
        if not 1 <= value <= most:
            self.warn(self.module, f'The value "{value}" for parameter "{name}" must be between 1 and {most}.')
        return min(max(value, 1), most)

    def warn(self, module, text):
        """Tells something of a module, once."""
        said = self.warnings.setdefault(module, [])
        if text not in said:
            said.append(text)

    def read(self, module, table, prefix=""):
        """The values of a module's parameters, by their names without its prefix."""
        self.module = module
        found = {name: it.default for name, it in table.items()}
        for name, given in self.parameters.items():
            short = name[len(prefix) :] if name.startswith(prefix) else None
            if short in table:
                self.used.add(name)
                found[short] = self.value(name, given, table[short])
        return found

    def value(self, name, given, it):
        if it.refused:
            raise unknown(name, f'This wiki doesn\'t know the parameter "{name}": {it.refused}.')
        if it.lost:
            self.warn(self.module, f'Nothing comes of the parameter "{name}": {it.lost}.')
            return None
        return self.several(name, given, it) if it.is_multi else it.read(self, name, given, it)

    def several(self, name, given, it):
        """The values of a parameter that has several."""
        pieces = split(given)
        if pieces == ["*"] and it.values:
            return list(it.values)
        if len(pieces) > VALUES:
            raise error("toomanyvalues", {"limit": VALUES, "lowlimit": VALUES, "highlimit": MOST}, name=name, bound=VALUES)
        read = [(piece, it.read(self, name, piece, it)) for piece in pieces]
        wrong = [piece for piece, value in read if value is None]
        if wrong:
            kind = "value" if len(wrong) == 1 else "values"
            self.warn(self.module, f'Unrecognized {kind} for parameter "{name}": {", ".join(wrong)}')
        return list(dict.fromkeys(value for _, value in read if value is not None)) or (None if it.default is None and wrong else [])

    def tell_unused(self):
        """Tells the parameters that no module knows."""
        rest = [it for it in self.parameters if it not in self.used]
        if rest:
            self.warn("main", f"Unrecognized parameter{'s' if len(rest) > 1 else ''}: {', '.join(rest)}.")
