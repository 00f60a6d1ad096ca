"""The answers to the questions of an audit, as entries of a report: findings first."""

import json
from dataclasses import replace

from hc_audit_questions import escaped
from hc_report import Entry, Quote, Sentence, Shell, Step, Steps, Tally, curl_parts, entry_of, plain, say
from hc_report_files import Command, json_of, place_shown, quote
from hc_report_html import html_page
from hc_report_outcomes import do, means
from hc_report_print import TextPrinter
from hc_report_replies import Asked
from hc_report_requests import ask_line, request_of
from hc_report_texts import counted, listed, printed, undo
from hc_report_words import (
    DEAD_ADVICE,
    ENDED_ADVICE,
    GUARD_ADVICE,
    IN_ORDER,
    KINDS,
    LATE_ADVICE,
    SERVED_ADVICE,
    SERVED_MEANING,
    UNREAD_ADVICE,
    UNREAD_MEANING,
)

MANY = 20
MANY_STEPS = 200
ASK_AGAIN = "To be told why, give hc this line:"
NO_SUCH_PLACE = 48
KIND_WORDS = {
    "hidden": "on names that begin with `.ht`",
    "guard": "on `Require` lines",
    "stops": "on whether requests end",
    "chain": "on where redirects lead",
    "htaccess": "on `.htaccess` files",
    "rule": "on rules that never apply",
}


class Answer:
    """A question and what came of it: its entry, the reply as JSON, and the trail where one was asked for."""

    def __init__(self, question, entry, reply=None):
        self.question, self.entry = question, entry
        self.reply = reply if isinstance(reply, dict) else {}
        self.trail = []

    @property
    def kind(self):
        """The kind of its entry; `outside` where a claim is broken by a request of which nothing is known."""
        return "outside" if self.entry.kind == "refuted" and self.ends_outside else self.entry.kind

    @property
    def ends_outside(self):
        """Whether it is a request outside that breaks the claim."""
        return "outside" in self.reply["refuted"]["outcome"]

    @property
    def code(self):
        """The code of a refusal, or None."""
        refused = self.reply.get("refused")
        return refused.get("code") if isinstance(refused, dict) else None


# ---- answers


def answer_of(question, line, files):
    """The answer that a reply gives."""
    command = Command(question.number, question.fields, question.line)
    entry = entry_of(question.number, line, command, files)
    return Answer(question, entry, _json(line))


def _json(line):
    try:
        return json_of(line)
    except ValueError:
        return None


def without_reply(question, files, kind, why):
    """The answer of a question that has no reply, which is `late` or `unanswered`; `why` is a sentence."""
    asked = Asked(question.number, Command(question.number, question.fields, question.line), files)
    words = say("the claim that ") + asked.claim if asked.claim else asked.words()
    entry = Entry(question.number, kind, why + (": ",) + words + (".",))
    entry.parts = [*asked.scope_parts(), do(LATE_ADVICE if kind == "late" else ENDED_ADVICE)]
    return Answer(question, entry)


def trail_line(answer):
    """The line that asks for the steps of a refuting request; None where there is none."""
    refuted = answer.reply.get("refuted") if answer.entry.kind == "refuted" else None
    request = request_of(refuted["request"], is_printed=True) if refuted else None
    line = ask_line(request) if request else None
    return line.encode() + b"\n" if line else None


def narrowed(question, file):
    """The question of a guard for the paths that end in the name of a file alone."""
    path = {"pattern": f"/{escaped(file.rpartition(b'/')[2])}$"}
    fields = {**question.fields, "scope": {**question.fields["scope"], "path": path}}
    return replace(question, fields=fields, line=json.dumps(fields).encode() + b"\n")


def say_narrowed(answer, wide):
    """Says why a question was asked for fewer paths."""
    why = say("Over all paths a request that ends outside comes first: ")
    answer.entry.parts.append(Sentence(why + wide.entry.title, "means"))


def add_trail(answer, line, files):
    """Adds the steps of a reply to the refuting request."""
    reply = _json(line)
    steps = entry_of(0, line, None, files)
    told = [part for part in steps.parts if isinstance(part, Steps)]
    if not told or not isinstance(reply, dict):
        return
    answer.trail = [event for event in reply["trail"] if isinstance(event, list) and event]
    kept = [part for part in answer.entry.parts if not (isinstance(part, Shell) and plain(part.title) == ASK_AGAIN)]
    answer.entry.parts = kept + told


# ---- what cases come to


def places_of(answers):
    """The scopes of answers, as a list of their URLs."""
    urls = [say("{}", answer.question.scope.url()) for answer in answers]
    more = len(urls) - MANY
    return listed(urls[:MANY] + ([(counted(more, "other"),)] if more > 0 else []))


class Report:
    """Gathers the entries of an audit."""

    def __init__(self, world, found):
        self.world, self.found = world, found
        self.entries = []
        self.never_read = set()

    def take(self, case, answers):
        """Adds the entries of a case by the answers to its questions."""
        if answers and all(answer.code == NO_SUCH_PLACE for answer in answers):
            self.unasked(case.of.place, "the line isn't part of the configuration")
        elif answers:
            {"hidden": self._hidden, "guard": self._guard, "stops": self._stops, "chain": self._chain,
             "htaccess": self._htaccess, "rule": self._rule}[case.kind](case, answers)

    def add(self, number, kind, title, parts=()):
        """Adds an entry."""
        self.entries.append(Entry(number, kind, title, list(parts)))

    def quote(self, place):
        """The quote of a place, as a list of parts."""
        found = quote(self.world.files, *place) if place[1] else None
        return [found] if found and found.source else []

    def unasked(self, place, reason):
        """Says that no question is asked of a line."""
        self.add(0, "unasked", say("{}: ", place_shown(*place)) + say(reason) + (".",), self.quote(place))

    def _each_kind(self, answers, calm, advice=None):
        """One entry for each kind of answers but the calm ones, the first answer's; the others are named."""
        by_kind = {}
        for answer in answers:
            by_kind.setdefault(answer.kind, []).append(answer)
        for kind, those in by_kind.items():
            if kind in calm:
                continue
            entry = those[0].entry
            entry.kind = kind
            entry.parts += [do(advice)] if kind == "refuted" and advice else []
            if len(those) > 1:
                same = say("As much came of it for ") + places_of(those[1:]) + (".",)
                entry.parts.append(Sentence(same))
            self.entries.append(entry)
        return by_kind

    # ---- the points

    def _stops(self, _case, answers):
        proved = self._each_kind(answers, ("proved",)).get("proved")
        if proved:
            title = say("each request to ") + places_of(proved) + (" ends, whatever its path, query and headers.",)
            self.add(proved[0].question.number, "proved", title)

    def _chain(self, _case, answers):
        for answer in answers:
            entry = answer.entry
            self.entries.append(entry if entry.grade != IN_ORDER else Entry(entry.number, entry.kind, entry.title))

    def _guard(self, case, answers):
        proved = self._each_kind(answers, ("proved",), GUARD_ADVICE).get("proved")
        if proved:
            folder = say("{}", case.of.folder)
            title = say("the `Require` of {} is in force for all below ", place_shown(*case.of.place)) + folder
            title += say(" that is served to requests to ") + places_of(proved) + (".",)
            self.add(proved[0].question.number, "proved", title, self._holes(case, proved[0]))

    def _holes(self, case, answer):
        holes = case.holes.below(case.of.folder, answer.question.scope.host)
        if not holes:
            return []
        named = [say("{}", hole) for hole in holes[:MANY]]
        named += [(counted(len(holes) - MANY, "other"),)] if len(holes) > MANY else []
        return [means("But for folders below it with `Require` lines of their own: {}.", listed(named))]

    def _rule(self, case, answers):
        if any(answer.kind == "refuted" or _matched(answer, case.of.place) for answer in answers):
            self.add(answers[0].question.number, "answered", say("in use: {}", place_shown(*case.of.place)))
            return
        by_kind = self._each_kind(answers, ("proved",))
        if set(by_kind) != {"proved"}:
            return
        path, _ = case.of.place
        title = say("The `RewriteRule` of {} matches for no request to ", place_shown(*case.of.place))
        parts = [*self.quote(case.of.place), means("Whatever the path, query, headers and client of a request are.")]
        parts += [means("Its file is never read, as another finding says.")] if path in self.never_read else []
        left = len(case.scopes) - len(answers)
        parts += [means("Of its servers {} weren't asked.", left)] if left else []
        parts.append(do(DEAD_ADVICE))
        self.add(answers[0].question.number, "dead", title + places_of(answers) + (".",), parts)

    def _hidden(self, case, answers):
        for answer in answers:
            file = _served(answer)
            if file == case.of:
                entry = answer.entry
                request = request_of(answer.question.fields)
                steps = [part for part in entry.parts if isinstance(part, Steps)]
                shell = curl_parts(request) if request else []
                self.add(entry.number, "served", entry.title,
                         [means(SERVED_MEANING), do(SERVED_ADVICE), *steps, *shell])
            elif answer.entry.grade != IN_ORDER and answer.kind != "ht_refused":
                self.entries.append(answer.entry)

    def _htaccess(self, case, answers):
        refused = [answer for answer in answers if answer.kind == "ht_refused"]
        others = [answer for answer in answers if answer.entry.grade != IN_ORDER and answer.kind != "ht_refused"]
        self.entries += [answer.entry for answer in others[:1] + refused[:1]]
        read = ["text", printed_of(case.of)]
        unread = [answer for answer in answers if answer.kind == "answered" and read not in _list(answer, "reads")]
        came = [answer for answer in unread if _walked(answer, case.of.rpartition(b"/")[0])]
        if len(unread) < len(answers) and not came:
            return
        if not came:
            number, reason = answers[0].question.number, "whether it is read isn't known: the request for a file"
            title = say("{}: ", place_shown(case.of, 0)) + say(reason + " below its folder ended before.")
            self.add(number, "unasked", title, [Sentence(answers[0].entry.title)])
            return
        if len(came) == len(answers):
            self.never_read.add(case.of)
        title = say("{} is never read for requests to ", place_shown(case.of, 0)) + places_of(came) + (".",)
        steps = [part for part in came[0].entry.parts if isinstance(part, Steps)]
        asked = [Sentence(say("It was asked for: ") + came[0].entry.title)]
        self.add(came[0].question.number, "unread", title, [*asked, means(UNREAD_MEANING), *steps, do(UNREAD_ADVICE)])

    # ---- what belongs to all

    def left_out(self, counts, why, advice):
        """Says how many questions weren't asked, in one entry."""
        if counts:
            many = [(counted(count, "question") + " ",) + say(KIND_WORDS[kind]) for kind, count in counts.items()]
            many = listed(many)
            self.add(0, "left_out", many + say(" left out, since ") + say(why) + (".",), [do(advice)])

    def shortened(self):
        """The entries as they are shown: refused files once, rules in use as one, what isn't asked as one."""
        return _merged(_once(self.entries))


def _matched(answer, place):
    """Whether a request that ends outside met the rule on its way."""
    path, line = place
    return ["rule", printed_of(path), line, True] in [event[:4] for event in answer.trail]


def printed_of(path):
    """A path as replies print it."""
    shown = {0x5C: "\\\\"}
    return "".join(shown.get(byte) or (chr(byte) if 0x20 <= byte <= 0x7E else f"\\x{byte:02x}") for byte in path)


def _list(answer, name):
    found = answer.reply.get(name)
    return found if isinstance(found, list) else []


def _served(answer):
    """The path of the file that is served; None where none is."""
    outcome = answer.reply.get("outcome")
    file = outcome.get("file") if isinstance(outcome, dict) else None
    return undo(file["path"]) if answer.kind == "answered" and isinstance(file, dict) else None


def _walked(answer, folder):
    """Whether a file name below a folder was followed."""
    for event in _list(answer, "trail"):
        if isinstance(event, list) and event[:1] == ["walk"] and len(event) > 1 and isinstance(event[1], str):
            if undo(event[1]).startswith(folder + b"/") or undo(event[1]) == folder:
                return True
    return False


def _once(entries):
    """Entries without those that say of a refused line what an earlier one says, and each request's steps once."""
    seen, shown = set(), {}
    for entry in entries:
        quoted = tuple((part.place, part.source) for part in entry.parts if isinstance(part, Quote))
        told = (entry.kind, quoted)
        if entry.kind != "ht_refused" or not quoted or told not in seen:
            seen.add(told)
            yield _shorter(entry, shown)


def _shorter(entry, shown):
    """An entry whose request is that of an earlier one, without its shell line and its steps."""
    sent = next((part.line for part in entry.parts if isinstance(part, Shell)), None)
    first = shown.setdefault(sent, entry.number)
    if entry.grade != IN_ORDER and sent and first != entry.number:
        at = next(at for at, part in enumerate(entry.parts) if isinstance(part, Shell))
        end = next((n for n, part in enumerate(entry.parts) if n > at and isinstance(part, Steps)), at)
        line = say("The shell line and the steps are those of line {}.", first)
        entry.parts[at : end + 1] = [Sentence(line, "means")]
    return entry


def _merged(entries):
    """Entries whose calm kinds with many of one sort stand together."""
    entries, used, unasked = list(entries), [], []
    kept = []
    for entry in entries:
        is_use = entry.kind == "answered" and plain(entry.title).startswith("in use: ")
        (used if is_use else unasked if entry.kind == "unasked" else kept).append(entry)
    if used:
        places = [Step(entry.title[1:]) for entry in used[:MANY]]
        title = (counted(len(used), "`RewriteRule`").replace("`", ""), " in use: a request matches.")
        kept.append(Entry(used[0].number, "answered", title, [Steps(say("Where:"), places, len(used) - len(places))]))
    if unasked:
        steps = [Step(entry.title, None) for entry in unasked[:MANY_STEPS]]
        parts = [Steps(say("Which, and why:"), steps, len(unasked) - len(steps))]
        kept.append(Entry(0, "unasked", say("of {} nothing is said.", (counted(len(unasked), "line"),)), parts))
    return kept


# ---- what was taken


def servers_entry(found, scopes):
    """The servers that were asked, and the names of each."""
    steps, by_host = [], {}
    for scope in scopes:
        by_host.setdefault(scope.host, []).append(scope)
    for host in [found.main, *found.hosts][:MANY_STEPS]:
        steps.append(_server_step(found, host, by_host.get(host, [])))
    title = say("The servers, as audit read them in the configuration: {} and the main server.",
                (counted(len(found.hosts), "virtual host"),))
    parts = [Steps(say("Asked were:"), steps, len(found.hosts) + 1 - len(steps))]
    named = [say("{}", file) for file in dict.fromkeys(found.files)]
    more = [(counted(len(named) - MANY, "other"),)] if len(named) > MANY else []
    parts.append(means("Read were {}.", listed(named[:MANY] + more) or say("no files")))
    if found.is_cut:
        parts.append(means("There are too many lines: what stands behind them wasn't looked at."))
    return Entry(0, "taken", title, parts)


def _server_step(found, host, scopes):
    """A server: where it stands, its names and its document root."""
    name = say("the main server") if host is found.main else say("{}", host.name or b"(no ServerName)")
    urls = [say("{}", scope.url()) for scope in scopes[:MANY]]
    urls += [(counted(len(scopes) - MANY, "other"),)] if len(scopes) > MANY else []
    nothing = (", of which nothing was asked: no request comes to it by these names and addresses",)
    words = name + ((" by ",) + listed(urls) if urls else nothing)
    root = host.root or found.main.root
    words += say(", document root {}", root) if root else ()
    wild = [say("{}", alias) for alias in host.wild_names()[:MANY]]
    words += ("; not by ",) + listed(wild) + say(", whose names `--host` may give") if wild else ()
    return Step(words, Quote(place_shown(*host.place), "") if host.place else None)


# ---- the whole


class AuditTally(Tally):
    """A tally that knows how many questions were asked and how many lines the world has."""

    def __init__(self, asked, lines):
        super().__init__()
        self._asked, self._lines = asked, lines

    questions = property(lambda self: self._asked)
    edits = property(lambda self: self._lines)

    def lines(self):
        """What it came to."""
        counts = [f"{count:,} {KINDS[kind][2]}" for kind, count in self.kinds.items()
                  if count and KINDS[kind][0] != IN_ORDER]
        found = "Findings: " + ", ".join(counts) if counts else "No finding"
        return [f"{counted(self._asked, 'question')} asked of a world of {counted(self._lines, 'line')}.", found + "."]


def print_report(entries, tally, out, colored):
    """Prints the findings and what is in order, under headings."""
    printer = TextPrinter(colored)
    for heading, those in (("Findings", _findings(entries)), ("In order", _calm(entries))):
        out.write(printer.paint(heading, "1") + "\n\n")
        for entry in those:
            out.write(printer.entry(entry) + ("\n" if entry.parts else ""))
        out.write("" if those else "There is none.\n" if heading == "Findings" else "There is nothing else.\n")
        out.write("" if those and those[-1].parts else "\n")
    out.write("".join(line + "\n" for line in tally.lines()))
    out.flush()


def _findings(entries):
    return sorted((entry for entry in entries if entry.grade != IN_ORDER), key=lambda entry: entry.grade)


def _calm(entries):
    return [entry for entry in entries if entry.grade == IN_ORDER]


def page(entries, tally, date):
    """The page of a report."""
    return html_page(entries, tally, "Audit of a configuration", date, True)




def safe(error):
    """An error in printable characters."""
    return printed(str(error))


def words_of(error):
    """An error as a value of a sentence."""
    return (safe(error),)
