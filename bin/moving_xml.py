"""Reads MediaWiki's XML exports for bin/import, schemas 0.10 and 0.11, as a stream: whoever takes what is read is told of the
site, of each page where it begins and ends, and of each revision behind its end. No more than one revision is held. A DOCTYPE,
and so every entity that isn't XML's own, is refused; what is too long isn't held."""
import bz2
import codecs
import gzip
import io
import os
import sys
import xml.parsers.expat
import zlib
from xml.parsers.expat import errors

from moving import Refused, seconds_of

SCHEMAS = {f"http://www.mediawiki.org/xml/export-{it}/": it for it in ("0.10", "0.11")}
PIECE = 1 << 16
# How many characters of a text, of another value are held; how many bytes one tag or comment may have.
TEXT_HELD, VALUE_HELD, TOKEN_BYTES = 1 << 22, 1 << 16, 1 << 24
CUT = {errors.XML_ERROR_NO_ELEMENTS, errors.XML_ERROR_UNCLOSED_TOKEN, errors.XML_ERROR_PARTIAL_CHAR, errors.XML_ERROR_UNCLOSED_CDATA_SECTION}
REFUSED_FORMS = {b"7z\xbc\xaf\x27\x1c": "7z", b"\xfd7zXZ\x00": "xz", b"\x28\xb5\x2f\xfd": "zst"}


class Site:
    """What an export says of its wiki."""

    def __init__(self):
        self.schema = self.language = self.name = self.generator = ""
        self.case, self.names, self.cases = "first-letter", {}, {}

    def is_case_sensitive(self, number):
        return self.cases.get(number, self.case) == "case-sensitive"


class Page:
    def __init__(self):
        self.title, self.number, self.is_redirect = "", None, False
        self.has_begun = False


class Revision:
    def __init__(self):
        self.text, self.model, self.moment = None, "wikitext", None
        self.has_number = self.has_author = self.has_summary = self.is_minor = False
        self.is_hidden = self.is_too_long = self.is_stub = False
        self.slots = 0


class Counted:
    """A file of bytes that counts what was read of it."""

    def __init__(self, file):
        self.file, self.count = file, 0

    def read(self, size=-1):
        data = self.file.read(size)
        self.count += len(data)
        return data

    def readable(self):
        return True


class Input:
    """The bytes of an export, plain, gzip or bzip2, whatever its name says; `-` is standard input."""

    def __init__(self, name):
        self.name = "standard input" if name == "-" else name
        try:
            file = sys.stdin.buffer if name == "-" else open(name, "rb")
            first = file.peek(6)[:6]
        except OSError as error:
            raise Refused(3, f"{self.name}: {error.strerror}") from error
        self.counted = Counted(file)
        for mark, form in REFUSED_FORMS.items():
            if first.startswith(mark):
                raise Refused(11, f"{self.name}: the file is packed as {form}; unpack it first, or pack it as gz or bz2")
        self.file = self.unpacked(first)

    def unpacked(self, first):
        if first.startswith(b"\x1f\x8b"):
            return gzip.GzipFile(fileobj=self.counted, mode="rb")
        return bz2.BZ2File(io.BufferedReader(Raw(self.counted))) if first.startswith(b"BZh") else self.counted

    def pieces(self):
        while data := self.read():
            yield data

    def read(self):
        try:
            return self.file.read(PIECE)
        except EOFError as error:
            raise Refused(7, f"{self.name}: the file ends in the middle") from error
        except (zlib.error, gzip.BadGzipFile) as error:
            raise Refused(11, f"{self.name}: the packed file is damaged") from error
        except OSError as error:
            # (bz2 has no error of its own)
            raise Refused(3 if error.errno else 11, f"{self.name}: {error.strerror or 'the packed file is damaged'}") from error


class Raw(io.RawIOBase):
    """Counted bytes for bz2, which wants a reader of whole pieces."""

    def __init__(self, counted):
        self.counted = counted

    def readable(self):
        return True

    def readinto(self, room):
        data = self.counted.read(len(room))
        room[: len(data)] = data
        return len(data)


def size_of(names):
    """How many bytes the files have in all, 0 where nobody knows."""
    try:
        return 0 if "-" in names else sum(os.stat(it).st_size for it in names)
    except OSError:
        return 0


class Reader:
    """Reads one export, and tells `taker` what it holds: `site_ends` (once before anything is known of it but the schema), `page_begins`, `revision_ends`, `page_ends`, `log_item`,
    `upload`, `other`."""

    def __init__(self, source, taker):
        self.source, self.taker = source, taker
        self.path, self.site, self.page, self.revision = [], Site(), None, None
        self.held = self.value = None
        self.room = self.fed = 0
        self.parser = xml.parsers.expat.ParserCreate("utf-8")
        self.parser.buffer_text = True
        self.parser.StartElementHandler = self.begin
        self.parser.EndElementHandler = self.end
        self.parser.CharacterDataHandler = self.characters
        self.parser.StartDoctypeDeclHandler = self.refuse_doctype
        self.parser.EntityDeclHandler = self.refuse_doctype
        self.parser.XmlDeclHandler = self.declaration
        self.decoder = codecs.getincrementaldecoder("utf-8")()

    def refuse(self, status, why):
        raise Refused(status, f"{self.source.name}: {why}")

    def read(self):
        for data in self.source.pieces():
            self.feed(data, False)
        self.feed(b"", True)

    def feed(self, data, is_last):
        # (the beginning of a character that the piece before ended in)
        before = len(self.decoder.getstate()[0])
        try:
            self.decoder.decode(data, is_last)
        except UnicodeDecodeError as error:
            if is_last:
                self.refuse(7, "the file ends in the middle, within a character")
            self.bad_bytes(data[: max(error.start - before, 0)])
        self.parse(data, is_last)
        self.fed += len(data)
        if self.fed - self.parser.CurrentByteIndex > TOKEN_BYTES:
            self.refuse(6, f"a tag or a comment has more than {TOKEN_BYTES} bytes")

    def bad_bytes(self, before):
        """What stands before the bytes that aren't UTF-8 is read, so that each page up to there is taken."""
        self.parse(before, False)
        line = self.parser.CurrentLineNumber
        self.refuse(9, f"behind line {line} stand bytes that aren't UTF-8")

    def parse(self, data, is_last):
        try:
            self.parser.Parse(data, is_last)
        except xml.parsers.expat.ExpatError as error:
            said = errors.messages[error.code]
            if is_last and said in CUT and self.fed:
                self.refuse(7, f"the file ends in the middle, in line {error.lineno}")
            self.refuse(6, f"line {error.lineno} isn't XML: {said}" if self.fed + len(data) else "the file is empty")

    def refuse_doctype(self, *_):
        self.refuse(10, f"line {self.parser.CurrentLineNumber} has a DOCTYPE, which no export has; it could name entities")

    def declaration(self, _, encoding, __):
        if encoding and encoding.lower() not in ("utf-8", "utf8", "us-ascii"):
            self.refuse(9, f"the encoding is {encoding}, and not UTF-8")

    # Elements

    def begin(self, name, attributes):
        path = self.path
        path.append(name)
        if len(path) == 1:
            return self.root(name, attributes)
        if self.revision is not None:
            return self.begin_of_revision(name, attributes)
        if self.page is not None:
            return self.begin_of_page(name, attributes)
        if len(path) == 2:
            return self.begin_of_root(name)
        if path[1] == "siteinfo":
            self.value = attributes.get("key") if name == "namespace" else None
            if name == "namespace" and "case" in attributes and number_of(self.value) is not None:
                self.site.cases[number_of(self.value)] = attributes["case"]
            self.hold(VALUE_HELD)

    def root(self, name, attributes):
        address = attributes.get("xmlns", "")
        if name != "mediawiki":
            self.refuse(12, f"the file's first element is <{name[:40]}>, so it is no export of MediaWiki")
        if address not in SCHEMAS:
            self.refuse(12, f"the export's schema is {(address or 'none')[:80]}; 0.10 and 0.11 are read")
        self.site.schema, self.site.language = SCHEMAS[address], attributes.get("xml:lang", "")
        self.taker.site_ends(self.site)

    def begin_of_root(self, name):
        if name == "page":
            self.page = Page()
        elif name == "logitem":
            self.taker.log_item()
        elif name != "siteinfo":
            self.taker.other(name)

    def begin_of_page(self, name, attributes):
        if len(self.path) != 3:
            return
        if name in ("title", "ns"):
            self.hold(VALUE_HELD)
        elif name == "redirect":
            self.page.is_redirect = True
        elif name == "revision":
            self.begin_page()
            self.revision = Revision()
        elif name == "upload":
            self.taker.upload()
        elif name != "id":
            self.taker.other(name)

    def begin_page(self):
        """Tells of the page once, as soon as its title and its namespace are known."""
        if not self.page.has_begun:
            self.page.has_begun = True
            self.taker.page_begins(self.page)

    def begin_of_revision(self, name, attributes):
        revision = self.revision
        if len(self.path) != 4:
            return
        if name == "text":
            revision.is_hidden = "deleted" in attributes
            revision.is_stub = attributes.get("bytes", "0") != "0" and not revision.is_hidden
            self.hold(TEXT_HELD)
        elif name in ("timestamp", "model"):
            self.hold(VALUE_HELD)
        elif name == "id":
            revision.has_number = True
        elif name == "contributor":
            revision.has_author = True
        elif name == "comment":
            revision.has_summary = True
        elif name == "minor":
            revision.is_minor = True
        elif name == "content":
            revision.slots += 1

    def hold(self, room):
        self.held, self.room = [], room

    def characters(self, text):
        if self.held is not None and self.room >= 0:
            self.held.append(text)
            self.room -= len(text)

    def end(self, name):
        held, self.held = self.held, None
        value = "".join(held) if held is not None else None
        depth = len(self.path)
        self.path.pop()
        if self.revision is not None and depth == 4 and value is not None:
            self.end_of_value(name, value)
        elif self.revision is not None and depth == 3:
            revision, self.revision = self.revision, None
            self.taker.revision_ends(revision)
        elif self.page is not None and self.revision is None and depth == 3 and value is not None:
            self.end_of_page_value(name, value)
        elif self.page is not None and depth == 2:
            self.begin_page()
            self.page = None
            self.taker.page_ends()
        elif depth == 2 and name == "siteinfo":
            self.taker.site_ends(self.site)
        elif self.page is None and value is not None:
            self.end_of_site_value(name, value)

    def end_of_value(self, name, value):
        revision = self.revision
        if name == "text":
            revision.text, revision.is_too_long = value, self.room < 0
            revision.is_stub = revision.is_stub and not value
        elif name == "timestamp":
            revision.moment = seconds_of(value.strip())
        elif name == "model":
            revision.model = value.strip()

    def end_of_page_value(self, name, value):
        page = self.page
        if name == "title":
            page.title = value
        elif name == "ns":
            page.number = number_of(value.strip())

    def end_of_site_value(self, name, value):
        site = self.site
        if name == "namespace" and number_of(self.value) is not None:
            site.names[number_of(self.value)] = value
        elif name == "sitename":
            site.name = value
        elif name == "generator":
            site.generator = value
        elif name == "case":
            site.case = value


def number_of(text):
    """A namespace's number, None where it is none."""
    digits = (text or "").removeprefix("-")
    return int(text) if digits.isascii() and digits.isdecimal() and len(digits) < 9 else None
