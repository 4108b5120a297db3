"""The two forms of a reply, `formatversion` 1 and 2. Replies are made as those of version 2, with a mark where the versions
differ in more than their booleans."""
import json


class Content(str):
    """The main text of an object, which version 1 has under the name `*`."""


class Boxed:
    """A value that version 1 puts into an object, under the name `*`."""

    def __init__(self, value):
        self.value = value


class ByKey(dict):
    """Objects by a key, which version 2 lists."""


def shaped(value, version):
    """A value in the form of a version."""
    if isinstance(value, ByKey):
        value = value if version == 1 else list(value.values())
    if isinstance(value, dict):
        return old_object(value) if version == 1 else {str(name): shaped(it, version) for name, it in value.items()}
    if isinstance(value, list):
        return [shaped(it, version) for it in value]
    if isinstance(value, Boxed):
        return {"*": value.value} if version == 1 else value.value
    return value


def old_object(value):
    """An object in version 1: a flag that isn't set is left out, and one that is set is an empty text."""
    found = {}
    for name, it in value.items():
        if it is False:
            continue
        found["*" if isinstance(it, Content) else str(name)] = "" if it is True else shaped(it, 1)
    return found


def written(value, version, is_ascii):
    """The bytes of a reply."""
    text = json.dumps(shaped(value, version), ensure_ascii=is_ascii, separators=(",", ":"))
    return text.encode("utf-8", "replace")
