"""Texts from replies and scripts, made safe to show, and the sentences that they stand in.

Nothing that comes from outside is shown but through `shown` and `source_shown`: what they give holds printable
characters alone.
"""

import functools
import re
import unicodedata

LONGEST = 400

ESCAPE = re.compile(rb"\\(?:x([0-9a-f]{2})|\\)")
LIKE_ESCAPE = re.compile(r"\\(?=x[0-9a-f]{2})")
MARKS = re.compile(r"(\{\}|`[^`]*`)")


class Code(str):
    """A text that stands in monospace. It is safe to show."""


# ---- bytes


def data_of(text):
    """The bytes of a text."""
    return text if isinstance(text, bytes) else text.encode("utf-8", "surrogatepass")


def undo(printed):
    """The bytes that a reply printed so: `\\xHH` is a byte, and two backslashes are one."""
    return ESCAPE.sub(lambda found: bytes([int(found[1], 16)]) if found[1] else b"\\", data_of(printed))


# ---- what is shown


def _escaped(char):
    """A character that doesn't print, by its bytes."""
    code = ord(char)
    data = bytes([code - 0xDC00]) if 0xDC80 <= code <= 0xDCFF else char.encode("utf-8", "surrogatepass")
    return "".join(f"\\x{byte:02x}" for byte in data)


def _printable(text):
    return text if text.isprintable() else "".join(c if c.isprintable() else _escaped(c) for c in text)


def _cut(data, longest):
    """The first bytes of a text, up to a character's end, and what is said of the others."""
    if len(data) <= longest:
        return data, ""
    end = longest
    while end > longest - 4 and data[end] & 0xC0 == 0x80:
        end -= 1
    return data[:end], f"... ({len(data) - end:,} bytes more)"


def printed(text, longest=LONGEST):
    """A text in printable characters, every other byte as `\\xHH`."""
    head, rest = _cut(data_of(text), longest)
    plain = LIKE_ESCAPE.sub(r"\\\\", head.decode("utf-8", "surrogateescape"))
    return _printable(plain) + rest


def shown(text, longest=LONGEST):
    """A text as code; the empty one is said to be."""
    data = data_of(text)
    return Code(printed(data, longest)) if data else "the empty text"


def source_shown(line, longest=LONGEST):
    """A line of a file as it is quoted: joined, tabs as blanks, and its backslashes as they stand."""
    head, rest = _cut(data_of(line).replace(b"\\\n", b"").replace(b"\t", b" ").strip(b" \r\n"), longest)
    return _printable(head.decode("utf-8", "surrogateescape")) + rest


def columns(text):
    """How many columns of a terminal a text takes."""
    wide = sum(unicodedata.east_asian_width(char) in "WF" for char in text)
    return len(text) + wide - sum(unicodedata.combining(char) > 0 for char in text)


# ---- sentences


def _spans(value):
    if isinstance(value, tuple):
        return value
    if isinstance(value, int):
        return (f"{value:,}",)
    return (value if isinstance(value, Code) else shown(value),)


@functools.lru_cache(maxsize=1024)
def _pieces(template):
    return MARKS.split(template)


def say(template, *values):
    """A sentence: a tuple of plain texts and `Code`.

    In the template `{}` stands for the next value, and what is between backticks is code. A value is a text from
    outside, a number, a `Code`, or a sentence.
    """
    spans, given = [], iter(values)
    for piece in _pieces(template):
        if piece == "{}":
            spans.extend(_spans(next(given)))
        elif piece.startswith("`"):
            spans.append(Code(piece[1:-1]))
        elif piece:
            spans.append(piece)
    return tuple(spans)


def plain(sentence):
    """A sentence as one text."""
    return "".join(sentence)


def listed(sentences, last="and"):
    """Sentences behind each other, as `a, b and c`."""
    joined = []
    for at, sentence in enumerate(sentences):
        if at:
            joined.append(f" {last} " if at == len(sentences) - 1 else ", ")
        joined.extend(sentence)
    return tuple(joined)


def capital(sentence):
    """A sentence with a capital letter, unless it begins with code."""
    first = sentence[0]
    return sentence if isinstance(first, Code) else (first[:1].upper() + first[1:], *sentence[1:])


def counted(number, one, many=None):
    """`1 edit`, `2 edits`."""
    return f"{number:,} {one if number == 1 else many or one + 's'}"
