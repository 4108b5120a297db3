"""The parameters of a request: those of its address and those of its body, which counts where both name one; of one name the
last counts, as in PHP."""
import urllib.parse

from moving import nfc
from serving import Refused

URLENCODED, PARTS = "application/x-www-form-urlencoded", "multipart/form-data"
# How many parameters a request may have.
MOST = 1000


def text_of(data):
    """Bytes as a text in Normalization Form C; what isn't UTF-8 shows U+FFFD."""
    return nfc(data.decode("utf-8", "replace"))


def encoded(data):
    """The pairs of a text in the form of an address."""
    if data.count(b"&") >= MOST:
        raise Refused(400, f"The request has more than {MOST} parameters.")
    for piece in data.split(b"&"):
        name, _, value = piece.replace(b"+", b" ").partition(b"=")
        if name:
            yield text_of(urllib.parse.unquote_to_bytes(name)), text_of(urllib.parse.unquote_to_bytes(value))


def words_of(header):
    """The value of a header before its first semicolon, and its parameters."""
    kind, *rest = header.split(";")
    pairs = (it.strip().partition("=") for it in rest)
    return kind.strip().lower(), {name.strip().lower(): value.strip().strip('"') for name, _, value in pairs}


def parts(body, boundary):
    """The pairs of a body of parts; a part without a name, and what stands around the parts, is passed over."""
    mark = b"--" + boundary.encode()
    if not boundary or not body.startswith(mark) or mark + b"--" not in body:
        raise Refused(400, "The body isn't made of parts that its boundary parts.")
    pieces = body.split(b"\r\n" + mark)
    if len(pieces) > MOST:
        raise Refused(400, f"The request has more than {MOST} parameters.")
    for piece in [pieces[0].removeprefix(mark), *pieces[1:]]:
        head, gap, value = piece.removeprefix(b"\r\n").partition(b"\r\n\r\n")
        for line in head.split(b"\r\n"):
            name, _, rest = line.decode("utf-8", "replace").partition(":")
            words = words_of(rest)[1] if gap and name.strip().lower() == "content-disposition" else {}
            if words.get("name"):
                yield nfc(words["name"]), text_of(value)


def parameters(query, kind, body):
    """The parameters of a request, by their names, and the names of those that the address has."""
    kind, words = words_of(kind)
    given = dict(encoded(query.encode("latin-1", "replace")))
    in_address = set(given)
    if body and kind == PARTS:
        given.update(parts(body, words.get("boundary", "")))
    elif body and kind in (URLENCODED, ""):
        given.update(encoded(body))
    elif body:
        raise Refused(415, f"A body is {URLENCODED} or {PARTS}.")
    return given, in_address
