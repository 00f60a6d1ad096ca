"""The files of a session, which follow the edits of its script, and the lines of them that are quoted."""

import json
import re
from dataclasses import dataclass
from typing import Optional

from hc_report_parts import Quote
from hc_report_texts import Code, columns, data_of, printed, source_shown

PATTERN_CODES = (13, 14, 15, 16)
ROOM = 100

VARIABLE = re.compile(rb"\$\{[^:}]*\}")
SEARCH = re.compile(rb"[=!]~\s*/")
GLOB = re.compile(rb"[*?\[]")
OPENING = re.compile(rb"<\s*([^\s>]*)")

LONGEST_EDIT = 65536
# Without these a request passes, or a rule applies, that wouldn't.
NEVER_LEFT_OUT = (
    b"require", b"order", b"allow", b"deny", b"satisfy", b"sslrequire", b"sslrequiressl", b"sslverifyclient",
    b"rewritecond",
)


# ---- commands


@dataclass
class Command:
    """A line of a script: its number, and its fields where it is a JSON object."""

    number: int
    fields: Optional[dict]
    line: bytes = b""

    @property
    def name(self):
        """What the line does; the empty text where it is no command."""
        name = self.fields.get("do") if self.fields else None
        return name if isinstance(name, str) else ""


def _no_constant(name):
    raise ValueError(name)


def json_of(line):
    """The JSON value of a line; a ValueError where there is none that could be read."""
    try:
        return json.loads(line.decode("utf-8"), parse_constant=_no_constant)
    except RecursionError as error:
        raise ValueError("nested too deep") from error


def commands(source):
    """The commands of a script, one for each line of a binary file."""
    for number, line in enumerate(iter(source.readline, b""), 1):
        try:
            fields = json_of(line)
        except ValueError:
            fields = None
        yield Command(number, fields if isinstance(fields, dict) else None, line)


# ---- files


def pieces_of(text):
    """The physical lines of a text, each with the LF that ends it."""
    *whole, last = text.split(b"\n")
    return [piece + b"\n" for piece in whole] + ([last] if last else [])


class Files:
    """The texts that were handed in: each as its bytes, and once a line of it was looked at as its physical lines."""

    def __init__(self):
        self._texts = {}

    def follow(self, command):
        """Does an edit that was done. What is no edit changes nothing."""
        does = {"put": self._put, "list": self._list, "drop": self._drop, "edit": self._edit}
        fields = command.fields or {}
        path = fields.get("path")
        if command.name in does and isinstance(path, str):
            does[command.name](data_of(path), fields)

    def _put(self, path, fields):
        text = fields.get("text")
        if isinstance(text, str):
            self._texts[path] = data_of(text)

    def _list(self, path, fields):
        if fields.get("kind") == "file":
            self._texts.pop(path, None)

    def _drop(self, path, _fields):
        below = path + b"/"
        for gone in [name for name in self._texts if name == path or name.startswith(below)]:
            del self._texts[gone]

    def _edit(self, path, fields):
        first, last, text = fields.get("from"), fields.get("to"), fields.get("text")
        pieces = self._pieces_of(path)
        if type(first) is not int or type(last) is not int or not isinstance(text, str) or pieces is None:
            return
        if 1 <= first <= last + 1 <= len(pieces) + 1:
            # The lines around it may be joined to it, where they have no LF or the text has none.
            before, behind = max(first - 2, 0), last + 1
            around = b"".join([*pieces[before : first - 1], data_of(text), *pieces[last:behind]])
            pieces[before:behind] = pieces_of(around)

    def _pieces_of(self, path):
        text = self._texts.get(path)
        if isinstance(text, bytes):
            text = self._texts[path] = pieces_of(text)
        return text

    def paths(self):
        """The paths of the texts, in byte order."""
        return sorted(self._texts)

    def text(self, path):
        """A text as its bytes; None where there is none."""
        text = self._texts.get(path)
        return b"".join(text) if isinstance(text, list) else text

    def physical(self, path, number):
        """The physical lines of the logical line that begins at a line; none if there is none."""
        pieces = self._pieces_of(path)
        if pieces is None or not 1 <= number <= len(pieces):
            return []
        end = number
        while end < len(pieces) and pieces[end - 1].endswith(b"\\\n"):
            end += 1
        return pieces[number - 1 : end]

    def line(self, path, number):
        """The logical line that begins at a line, without its joins and the blanks around it; None if there is none."""
        *joined, last = self.physical(path, number) or [None]
        if last is None:
            return None
        return b"".join([piece[:-2] for piece in joined] + [last]).rstrip(b"\r\n").strip(b" \t")

    def line_before(self, path, number):
        """The last logical line before a line that is neither empty nor a comment; empty if there is none."""
        pieces = self._pieces_of(path) or []
        while number > 1:
            number -= 1
            while number > 1 and pieces[number - 2].endswith(b"\\\n"):
                number -= 1
            line = self.line(path, number)
            if line and not line.startswith(b"#"):
                return line
        return b""


# ---- quotes


def place_shown(path, line):
    """`FILE:LINE`; line 0 is the file as a whole. The path is one of bytes."""
    return Code(printed(path) + (f":{line}" if line else ""))


def quote(files, path, line):
    """The quote of a line. Its source is empty where no script was followed, or has no such line."""
    found = files.line(path, line) if files else None
    return Quote(place_shown(path, line), "" if found is None else source_shown(found))


def marked(place, line, at):
    """The quote of a line whose byte `at` is marked; of a long line what stands around it."""
    while 0 < at < len(line) and line[at] & 0xC0 == 0x80:
        at -= 1
    first = max(0, at - ROOM // 2) if len(line) > ROOM else 0
    front = ("..." if first else "") + source_shown(b"|" + line[first:at] + b"|")[1:-1]
    back = line[at : first + ROOM]
    rest = source_shown(b"|" + back)[1:] + ("..." if first + ROOM < len(line) else "")
    return Quote(place, front + rest, columns(front))


def quote_of_refusal(files, path, line, code, at):
    """The quote of a refused line, with the byte of its pattern marked where it can be told."""
    found = files.line(path, line) if files and line else None
    byte = byte_of_pattern(found, at) if found is not None and code in PATTERN_CODES else None
    return quote(files, path, line) if byte is None else marked(place_shown(path, line), found, byte)


# ---- a line that is left out


def edit_without(files, path, number):
    """The command that makes a comment of a directive, as a line of JSON; None where it can't go alone."""
    pieces, line = files.physical(path, number), files.line(path, number)
    if not line or not _may_go(files, path, number, line):
        return None
    try:
        name, text = path.decode("utf-8"), b"".join([b"# ", *pieces]).decode("utf-8")
    except UnicodeDecodeError:
        return None
    fields = {"do": "edit", "path": name, "from": number, "to": number + len(pieces) - 1, "text": text}
    written = json.dumps(fields, separators=(",", ":")).replace("\x7f", "\\u007f")
    return written if len(written) <= LONGEST_EDIT else None


def _may_go(files, path, number, line):
    """Whether a line is a directive without which no section loses an end and no other rule gets its conditions."""
    name = _name_of(line)
    if name[:1] in b"<#" or b"${" in name or name in NEVER_LEFT_OUT:
        return False
    return name != b"rewriterule" or _name_of(files.line_before(path, number)) != b"rewritecond"


def _name_of(line):
    """The name of a directive in lower case; empty where there is none."""
    return line.split(None, 1)[0].lower() if line.split() else b""


# ---- the byte of a pattern


def words(line, rewriting=False):
    """The words of a line as `docs/RULES.md` ("Words") has them: each as its bytes, and where each of these stands."""
    found, at = [], 0
    while at < len(line):
        if line[at] in b" \t":
            at += 1
            continue
        word, at = _word(line, at, rewriting)
        found.append(word)
    return found


def _word(line, at, rewriting):
    quoted = line[at] if line[at] in b"\"'" else None
    at += quoted is not None
    text, places = bytearray(), []
    while at < len(line):
        byte, after = line[at], line[at + 1] if at + 1 < len(line) else None
        if byte == quoted:
            at += 1
            break
        if quoted is None and byte in b" \t":
            break
        if byte == 0x5C and after is not None and _joins(after, quoted, rewriting):
            if rewriting:
                text.append(byte)
                places.append(at)
            at += 1
        text.append(line[at])
        places.append(at)
        at += 1
    return (bytes(text), [*places, at]), at


def _joins(after, quoted, rewriting):
    """Whether a backslash and the byte behind it are taken together."""
    if rewriting:
        return quoted is None and after in b" \t"
    return after == 0x5C or after == quoted


def byte_of_pattern(line, at):
    """Where the byte `at` of the pattern of a line stands in the line; None where it can't be told."""
    word = _pattern_word(line)
    if word is None:
        return None
    _, places = word
    variable = VARIABLE.search(line)
    if not 0 <= at < len(places) or variable and variable.start() <= places[at]:
        return None
    return places[at]


def _pattern_word(line):
    opening = OPENING.match(line)
    if opening:
        first, end = opening.end(), line.rfind(b">")
        found = words(line[first : end if end >= first else len(line)])
        found = [(text, [place + first for place in places]) for text, places in found]
        return _of_section(opening[1].lower(), found)
    name = _name_of(line)
    return _of_directive(name, words(line, name.startswith(b"rewrite"))[1:])


def _behind(word, count):
    return word[0][count:], word[1][count:]


def _of_section(name, found):
    if name in (b"if", b"elseif") and found:
        searches = list(SEARCH.finditer(found[0][0]))
        return _behind(found[0], searches[0].end()) if len(searches) == 1 else None
    other = len(found) > 1 and found[0][0] == b"~"
    return found[other] if found else None


def _of_directive(name, found):
    at = {b"rewriterule": 0, b"rewritecond": 1, b"aliasmatch": 0, b"include": 0, b"includeoptional": 0}.get(name)
    if name == b"redirectmatch" and found:
        status = found[0][0].lower()
        at = int(status.isdigit() or status in (b"permanent", b"temp", b"seeother", b"gone"))
    if at is None or at >= len(found):
        return None
    word = found[at]
    if name.startswith(b"rewrite") and word[0].startswith(b"!"):
        return _behind(word, 1)
    return _component(word) if name.startswith(b"include") else word


def _component(word):
    """The only component of a path with a wildcard."""
    start, globs = 0, []
    for part in word[0].split(b"/"):
        if GLOB.search(part):
            globs.append(start)
        start += len(part) + 1
    return _behind(word, globs[0]) if len(globs) == 1 else None
