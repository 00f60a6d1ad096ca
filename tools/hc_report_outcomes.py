"""Refusals and outcomes of replies: in words, and the parts that explain them."""

import http

from hc_report_files import edit_without, marked, place_shown, quote_of_refusal
from hc_report_forms import Unknown, fields_of, read_words, true_of
from hc_report_parts import ScriptLine, Sentence
from hc_report_texts import Code, data_of, printed, say, undo
from hc_report_words import LEAVE_OUT, LEFT_OUT, LIMITS, MEANING, OUTSIDE, REFUSALS, STATUSES

DEEPEST = 64


def means(template, *values):
    """A sentence on what something means."""
    return Sentence(say(template, *values), "means")


def do(template, *values):
    """A sentence on what to do."""
    return Sentence(say(template, *values), "do")


# ---- refusals


def refusal_parts(asked, refusal):
    """A refusal in words, and its parts: the line, what is refused there, what to do, and an edit that does it."""
    at, code, field, file, line, name = fields_of(refusal, at=int, code=int, field=str, file=str, line=int, name=str)
    path, field = undo(file), undo(field)
    words = say("{} ({})", Code(printed(name)), Code(str(code)))
    words += say(" at {}", place_shown(path, line)) if file else ()
    words += say(" in {}", Code(printed(field))) if field else ()
    quoted = quote_of_refusal(asked.files, path, line, code, at) if file else _pattern_quoted(asked, field, code, at)
    parts = [quoted] if quoted and quoted.source else []
    known, what, advice = REFUSALS.get(code, ("", "", ""))
    if known != name:
        return words, [*parts, means("This report knows no refusal of this code and name.")]
    byte = say(", at byte {} of it (counted from 0)", at) if code in (13, 14, 16) else ()
    edit = edit_without(asked.files, path, line) if file and asked.files and code in LEFT_OUT else None
    parts += [Sentence(say(what) + byte + (".",), "means"), do(advice)]
    return words, parts + ([ScriptLine(say(LEAVE_OUT), edit)] if edit else [])


def _patterns(value, found, depth=0):
    """Gathers the patterns of a set, or of an object with sets."""
    for name, of in value.items() if isinstance(value, dict) else enumerate(value):
        if name == "pattern" and isinstance(of, str):
            found.append(of)
        elif isinstance(of, (dict, list)) and depth < DEEPEST:
            _patterns(of, found, depth + 1)


def _pattern_quoted(asked, field, code, at):
    """The refused pattern of a command's field, where this has but one."""
    value, found = asked.fields.get(field.decode("utf-8", "replace")), []
    if 13 <= code <= 16 and isinstance(value, (dict, list)):
        _patterns(value, found)
    pattern = data_of(found[0]) if len(found) == 1 else b""
    return marked("", pattern, min(max(at, 0), len(pattern))) if pattern else None


# ---- outcomes


def outcome_words(asked, value):
    """The kind of an outcome, what the request meets in words, and the parts that explain it."""
    if not isinstance(value, dict) or len(value) != 1:
        raise Unknown
    name, of = next(iter(value.items()))
    if name not in OUTCOMES:
        raise Unknown
    return OUTCOMES[name](asked, of)


def status_shown(status):
    """A status with its name, where it has one."""
    try:
        return (f"{status} ({http.HTTPStatus(status).phrase})",)
    except ValueError:
        return (str(status),)


def _file(_asked, value):
    info, path = fields_of(value, info=str, path=str)
    tail = say(", with the path information {}", read_words(info)) if info else ()
    return "answered", say("is served {}", read_words(path)) + tail, [means(MEANING["file"])]


def _directory(_asked, value):
    if not isinstance(value, str):
        raise Unknown
    return "answered", say("comes to the directory {}", read_words(value)), [means(MEANING["directory"])]


def _not_found(_asked, value):
    true_of(value)
    return "answered", say("is not found"), [means(MEANING["not_found"])]


def _redirect(_asked, value):
    location, status = fields_of(value, location=str, status=int)
    words = say("is sent to {} with the status {}", read_words(location), status_shown(status))
    return "answered", words, [means(MEANING["redirect"])]


def _status(_asked, value):
    if type(value) is not int:
        raise Unknown
    return "answered", say("is answered {}", status_shown(value)), [means(STATUSES.get(value, MEANING["status"]))]


def _limit(_asked, value):
    if not isinstance(value, str) or value not in LIMITS:
        raise Unknown
    words, advice = LIMITS[value]
    return "limit", say(words), [do(advice)]


def _ht_refused(asked, value):
    words, parts = refusal_parts(asked, value)
    return "ht_refused", say("meets a `.htaccess` that isn't read, ") + words, [*parts, means(MEANING["ht_refused"])]


def _outside(_asked, value):
    if not isinstance(value, str) or value not in OUTSIDE:
        raise Unknown
    words = say("is outside of what is modelled ({})", Code(value))
    return "outside", words, [means(OUTSIDE[value]), means(MEANING["outside"])]


OUTCOMES = {
    "file": _file,
    "directory": _directory,
    "not_found": _not_found,
    "redirect": _redirect,
    "status": _status,
    "limit": _limit,
    "ht_refused": _ht_refused,
    "outside": _outside,
}
