"""Replies of hc as entries of a report.

`entry_of` is the way in. The forms of replies are those of docs/RULES.md and the README; what has none of them is an
entry of the kind `unknown`, which shows the line as it is.
"""

from hc_report_files import json_of, quote
from hc_report_forms import Unknown, fields_of, read_words, true_of
from hc_report_outcomes import do, means, outcome_words, refusal_parts
from hc_report_parts import Entry, Sentence, Shell, Steps
from hc_report_requests import (
    ask_line,
    came,
    cell_words,
    cells_counted,
    claim_words,
    curl_line,
    curl_notes,
    place_in,
    request_of,
    scope_words,
    servers_of,
    subject,
)
from hc_report_texts import Code, capital, counted, listed, plain, say
from hc_report_trails import branch_part, reads_sentence, trail_steps
from hc_report_words import (
    BREAKS,
    CONDITIONS,
    ENDS_ADVICE,
    MANY_ENDS_ADVICE,
    OUTSIDE_BREAKS,
    REJECTED_MEANING,
    STOPS,
    TOO_MANY_ADVICE,
    UNDECIDED_ADVICE,
    UNDECIDED_MEANING,
)


class Asked:
    """What a reply answers: its line, and the command and the files of the script where one is followed."""

    def __init__(self, number, command=None, files=None):
        self.number = number
        self.files = files
        self.fields = command.fields if command and command.fields else {}
        self.name = command.name if command else ""
        self.request = request_of(self.fields) if self.name in ("ask", "follow") else None
        self.claim = claim_words(self.fields.get("claim"))

    def subject(self):
        """What a sentence on the answer to an `ask` or a `follow` begins with."""
        return subject(self.request) if self.request else say(f"The request of line {self.number}")

    def words(self):
        """The command in words."""
        if self.request:
            return say("{} for ", Code(self.name)) + subject(self.request)
        if self.claim:
            return say("{} whether ", self.name) + self.claim
        path = self.fields.get("path")
        return say("{}", self.name) + (say(" of {}", path) if isinstance(path, str) else ())

    def claim_parts(self):
        """The claim, and what belongs to it."""
        claim = [Sentence(("The claim: ",) + self.claim + (".",))] if self.claim else []
        return claim + self.scope_parts()

    def scope_parts(self):
        """The line of which a claim speaks, and its scope."""
        place = place_in(self.fields.get("claim")) if self.claim else None
        named = quote(self.files, *place) if place else None
        scope = scope_words(self.fields.get("scope"))
        parts = [named] if named and named.source else []
        return parts + ([Sentence(("The scope: ",) + scope + (".",))] if scope else [])


# ---- edits and counts


def _done(asked, value):
    if value == "end":
        return Entry(asked.number, "ended", say("The session ended."))
    if value not in ("put", "list", "drop", "edit", "main"):
        raise Unknown
    path = asked.fields.get("path")
    of = say(" of {}", path) if isinstance(path, str) else ()
    return Entry(asked.number, "done", say("{}", value) + of + (" is done.",))


def _config(asked, value):
    (hosts,) = fields_of(value, hosts=int)
    many = counted(hosts, "virtual host") if hosts else "no virtual host"
    return Entry(asked.number, "answered", say(f"The files make a configuration with {many}."))


def _stats(asked, value):
    asks, evaluations = fields_of(value, asks=int, evaluations=int)
    said = (counted(asks, "ask"), " had an outcome, for ", f"{evaluations:,}", " of them no answer was kept.")
    return Entry(asked.number, "answered", said)


def _summary(asked, value):
    names = ("asks", "denied", "evaluations", "files", "missing", "no_memory")
    counts = fields_of(value, **{name: int for name in names})
    said = listed([say("{} {}", Code(name), count) for name, count in zip(names, counts)])
    return Entry(asked.number, "answered", say("The generated script has been answered: ") + said + (".",))


# ---- requests


def _outcome(asked, value, steps=()):
    kind, words, parts = outcome_words(asked, value)
    entry = Entry(asked.number, kind, asked.subject() + (" ",) + words + (".",))
    entry.parts += came(asked.request, asked.fields) if asked.request else []
    entry.parts += [*parts, *steps]
    entry.parts += curl_parts(asked.request) if asked.request and kind in ("limit", "ht_refused") else []
    return entry


def _trailed(asked, reply):
    events, outcome, reads, trail = fields_of(reply, events=int, outcome=dict, reads=list, trail=list)
    steps = Steps(say("Because:"), trail_steps(asked, trail), max(0, events - len(trail)))
    return _outcome(asked, outcome, [steps, *reads_sentence(reads)])


def _followed(asked, value):
    outcome, steps, stop = fields_of(value, outcome=dict, steps=int, stop=str)
    if stop not in STOPS:
        raise Unknown
    kind, words, parts = outcome_words(asked, outcome)
    own_kind, meaning = STOPS[stop]
    times = "once" if steps == 1 else f"{steps} times"
    way = (f" is redirected {times} among the named servers, and then",) if steps else ()
    entry = Entry(asked.number, own_kind or kind, asked.subject() + way + (" ",) + words + (".",))
    entry.parts += came(asked.request, asked.fields) if asked.request else []
    entry.parts += [means(meaning)] if meaning else []
    entry.parts += parts
    return entry


def curl_parts(request):
    """The shell line that sends a request, and what it doesn't say."""
    line = curl_line(request)
    if line is None:
        return [Sentence(say("curl can't send this request as it is."), "means")]
    return [Shell(say("To send it:"), line)] + [Sentence(note, "means") for note in curl_notes(request)]


# ---- claims


def _proved(asked, value):
    true_of(value)
    return _holds(asked, "proved", "")


def _accepted(asked, value):
    true_of(value)
    cells = cells_counted(asked.fields)
    return _holds(asked, "accepted", ", by an invariant" + (f" of {cells}" if cells else ""))


def _holds(asked, kind, by):
    words = asked.claim or say("the claim holds of each request of its scope")
    return Entry(asked.number, kind, capital(words + (by + ".",)), asked.scope_parts())


def _refuted(asked, value):
    outcome, fields = fields_of(value, outcome=dict, request=dict)
    request = request_of(fields, is_printed=True)
    if request is None:
        raise Unknown
    kind, words, parts = outcome_words(asked, outcome)
    servers = servers_of(asked.fields.get("claim"))
    who = "the last request of its chain" if servers else "it"
    entry = Entry(asked.number, "refuted", subject(request) + (f" breaks the claim: {who} ",) + words + (".",))
    entry.parts += [*asked.claim_parts(), *came(request, fields), *parts]
    claim = asked.fields.get("claim") if asked.claim else {}
    breaks = OUTSIDE_BREAKS if kind == "outside" else BREAKS.get(claim.get("kind"))
    entry.parts += [means(breaks)] if breaks else []
    entry.parts += [*curl_parts(request), *_why_parts(request, servers)]
    return entry


def _why_parts(request, servers):
    line = ask_line(request, servers)
    return [Shell(say("To be told why, give hc this line:"), line)] if line else []


def _undecided(asked, value):
    (branch,) = fields_of(value, branch=list)
    claim = asked.claim or say("the claim holds")
    this = "this holds: " if plain(claim).startswith("whenever") else ""
    title = (f"It isn't known whether {this}", *claim, ".")
    decided = branch_part(asked, branch, say("The branch decides"))
    advice = ENDS_ADVICE if servers_of(asked.fields.get("claim")) else UNDECIDED_ADVICE
    parts = [*asked.scope_parts(), means(UNDECIDED_MEANING), decided, do(advice)]
    return Entry(asked.number, "undecided", title, parts)


def _too_many(asked, value):
    if type(value) is not int:
        raise Unknown
    title = say("The claim has {} branches or more, so it wasn't decided.", value)
    advice = MANY_ENDS_ADVICE if servers_of(asked.fields.get("claim")) else TOO_MANY_ADVICE
    return Entry(asked.number, "too_many", title, [*asked.claim_parts(), do(advice)])


def _rejected(asked, value):
    branch, cell, condition, text = fields_of(value, branch=list, cell=int, condition=str, text=str)
    if condition not in CONDITIONS:
        raise Unknown
    asks, advice = CONDITIONS[condition]
    title = say("The invariant doesn't show the claim: {} is false, by which ", Code(condition)) + say(asks) + (".",)
    entry = Entry(asked.number, "rejected", title, asked.claim_parts())
    entry.parts += _cell_parts(asked, cell) if condition != "K1" else []
    if condition not in ("K1", "K5"):
        entry.parts.append(branch_part(asked, branch, say("The branch from this cell decides")))
    if condition in ("K1", "K2"):
        entry.parts.append(_lacking(text))
    entry.parts += [do(advice), means(REJECTED_MEANING)]
    return entry


def _cell_parts(asked, cell):
    cells = asked.fields.get("cells")
    words = cell_words(cells[cell]) if isinstance(cells, list) and 0 <= cell < len(cells) else None
    return [Sentence(say("Cell {} (counted from 0)", cell) + ((" stands ",) + words if words else ()) + (".",))]


def _lacking(text):
    if text:
        return Sentence(say("No cell there has the text {}.", read_words(text)))
    return Sentence(say("No cell stands there, or none has the empty text."))


# ---- what isn't answered


def _refused(asked, value):
    words, parts = refusal_parts(asked, value)
    return Entry(asked.number, "refused", words + (".",), parts + _nothing(asked))


def _no_memory(asked, value):
    true_of(value)
    title = say("There was no memory for the answer; the line may be given again.")
    return Entry(asked.number, "no_memory", title, _nothing(asked))


def _nothing(asked):
    """What wasn't done."""
    asked_words = (say("Asked was: ") + asked.words() + ("; ",)) if asked.name else ()
    return [Sentence(capital(asked_words + ("nothing was answered, and nothing changed.",)))]


# ---- the way in

REPLIES = {
    "done": _done,
    "config": _config,
    "stats": _stats,
    "summary": _summary,
    "outcome": _outcome,
    "followed": _followed,
    "proved": _proved,
    "accepted": _accepted,
    "refuted": _refuted,
    "undecided": _undecided,
    "too_many": _too_many,
    "rejected": _rejected,
    "refused": _refused,
    "no_memory": _no_memory,
}

TRAILED = {"events", "outcome", "reads", "trail"}

# To which command each reply may come; those that aren't here may come to any.
COMMANDS = {
    "config": "check",
    "stats": "stats",
    "outcome": "ask",
    "followed": "follow",
    "proved": "decide",
    "refuted": "decide",
    "undecided": "decide",
    "too_many": "decide",
    "accepted": "verify",
    "rejected": "verify",
}


def entry_of(number, line, command=None, files=None):
    """The entry of a reply, which is a line of bytes. The files are those before the command, which isn't followed."""
    try:
        reply = json_of(line)
        name = _name_of(reply)
        wanted = reply["done"] if name == "done" else COMMANDS.get(name)
        if command and wanted and command.name != wanted:
            return _mismatch(number, line, command)
        asked = Asked(number, command, files)
        return _trailed(asked, reply) if len(reply) > 1 else REPLIES[name](asked, reply[name])
    except (ValueError, RecursionError, Unknown):
        return Entry(number, "unknown", say("a reply that has no known form: {}", line.rstrip(b"\n")))


def _name_of(reply):
    if not isinstance(reply, dict) or len(reply) != 1 and set(reply) != TRAILED:
        raise Unknown
    name = "outcome" if len(reply) > 1 else next(iter(reply))
    if name not in REPLIES:
        raise Unknown
    return name


def _mismatch(number, line, command):
    title = say("{} is no reply to the line of the script, {}.", line.rstrip(b"\n"), command.line.rstrip(b"\n"))
    return Entry(number, "mismatch", title, [do("Look whether this is the script that was answered.")])


def unanswered(first, last, line):
    """The entry of commands that have no reply; the line is that of the first."""
    lines = f"line {first}" if first == last else f"the lines {first} to {last}"
    return Entry(first, "unanswered", say(f"there is none for {lines} of the script: {{}}", line.rstrip(b"\n")))


def unasked(first):
    """The entry of replies for which the script has no line."""
    title = say(f"The script has no line for the replies from line {first} on.")
    return Entry(first, "mismatch", title, [do("Look whether this is the script that was answered.")])
