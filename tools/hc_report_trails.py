"""Trails, reads and branches of replies: steps in their order, each with the line that it tells of."""

import json

from hc_report_files import place_shown, quote
from hc_report_forms import Unknown, items_of, read_words
from hc_report_parts import Quote, Sentence, Step, Steps
from hc_report_texts import counted, listed, say, source_shown, undo
from hc_report_words import AUTHORIZED, WALKED

MANY_READS = 8


# ---- trails


def trail_steps(asked, trail):
    """The steps of a trail. An event that isn't known is shown as it is."""
    steps = []
    for event in trail:
        try:
            name = event[0] if isinstance(event, list) and event else None
            steps.append(EVENTS[name](asked, event) if isinstance(name, str) and name in EVENTS else _other(event))
        except Unknown:
            steps.append(_other(event))
    return steps


def _other(event):
    return Step(say("an unknown event: {}", json.dumps(event)))


def _quoted(file, line, source):
    return Quote(place_shown(undo(file), line), source_shown(undo(source)))


def _host(asked, event):
    _, file, line = items_of(event, str, str, int)
    if not file:
        return Step(say("the main server answers"))
    return Step(say("is the virtual host that answers"), quote(asked.files, undo(file), line))


def _with_query(query):
    return say(" and the query {}", read_words(query)) if query else ()


def _pass(_asked, event):
    _, number, path, query = items_of(event, str, int, str, str)
    begins = say("pass {} begins", number) if number else say("the request begins")
    return Step(begins + say(" with the path {}", read_words(path)) + _with_query(query))


def _test(held, failed):
    def step(_asked, event):
        _, file, line, is_so, source = items_of(event, str, str, int, bool, str)
        return Step(say(held if is_so else failed), _quoted(file, line, source))

    return step


def _text(_asked, event):
    _, text, query = items_of(event, str, str, str)
    return Step(say("the text is now {}", read_words(text)) + _with_query(query))


def _round(_asked, event):
    _, number = items_of(event, str, int)
    return Step(say("the rules begin again, in round {}", number))


def _answers(_asked, event):
    _, file, line, source = items_of(event, str, str, int, str)
    return Step(say("answers"), _quoted(file, line, source))


def _map(_asked, event):
    _, file, line, name, source = items_of(event, str, str, int, str, str)
    if not file:
        return Step(say("the file name is {}", read_words(name)))
    return Step(say("gives the file name {}", read_words(name)), _quoted(file, line, source))


def _walk(_asked, event):
    _, name, info, kind = items_of(event, str, str, str, str)
    if kind not in WALKED:
        raise Unknown
    tail = say(", and {} is left as path information", read_words(info)) if info else ()
    return Step(say("{} ", read_words(name)) + (WALKED[kind],) + tail)


def _section(_asked, event):
    _, file, line, source = items_of(event, str, str, int, str)
    return Step(say("applies"), _quoted(file, line, source))


def _auth(_asked, event):
    _, value = items_of(event, str, str)
    if value not in AUTHORIZED:
        raise Unknown
    return Step(say(AUTHORIZED[value]))


def _restart(_asked, event):
    _, path = items_of(event, str, str)
    return Step(say("the request is restarted with the path {}", read_words(path)))


EVENTS = {
    "host": _host,
    "pass": _pass,
    "cond": _test("held", "didn't hold"),
    "rule": _test("matched", "didn't match"),
    "text": _text,
    "round": _round,
    "redirect": _answers,
    "map": _map,
    "walk": _walk,
    "section": _section,
    "auth": _auth,
    "restart": _restart,
}

READS = (("text", "the text of "), ("kind", "what stands at "), ("names", "the names in "))


def reads_sentence(reads):
    """What an answer rests on, in a sentence, or none."""
    paths, others = {name: [] for name, _ in READS}, []
    for read in reads:
        try:
            name, path = items_of(read, str, str)
            paths[name].append(say("{}", read_words(path)))
        except (Unknown, KeyError):
            others.append(say("{} (unknown)", json.dumps(read)))
    said = [(front,) + _some(paths[name]) for name, front in READS if paths[name]]
    said += [_some(others)] if others else []
    return [Sentence(("It rests on ",) + listed(said) + (".",), "means")] if said else []


def _some(sentences):
    """The first ones, and how many others there are."""
    others = len(sentences) - MANY_READS
    return listed(sentences[:MANY_READS] + ([(counted(others, "other"),)] if others > 0 else []))


# ---- what decides


def branch_part(asked, branch, title):
    """What a branch decided, under a title."""
    steps = []
    for decision in branch:
        name, file, line, is_so = items_of(decision, str, str, int, bool)
        if name not in ("cond", "rule"):
            raise Unknown
        words = {"cond": ("didn't hold", "held"), "rule": ("didn't match", "matched")}[name][is_so]
        steps.append(Step(say(words), quote(asked.files, undo(file), line)))
    if not steps:
        return Sentence(title + (" nothing: no rule and no condition stood on its way.",))
    return Steps(title + (":",), steps)
