"""Reports on sessions of hc, the analyser of configurations of the Apache HTTP Server.

For scripts of this folder:

    entries = hc_report.entries(replies, script)             # binary files; the script may be None
    tally = hc_report.print_text(entries, sys.stdout)        # prints them as they come
    page, tally = hc_report.html_page(entries, title="..")   # or makes one page of them
    sys.exit(tally.status)

An `Entry` has a number, a kind (of `KINDS`), a title and parts: sentences, quotes of lines, steps and shell lines. Who
adds entries of its own builds them with `say`, through which every text from outside has to go.
"""

from hc_report_files import Files, commands
from hc_report_html import html_page as _html_page
from hc_report_parts import Entry, Quote, ScriptLine, Sentence, Shell, Step, Steps
from hc_report_print import TextPrinter
from hc_report_replies import curl_parts, entry_of, unanswered, unasked
from hc_report_texts import Code, counted, plain, printed, say, shown
from hc_report_words import EDITS, IN_ORDER, KINDS

__all__ = [
    "Code", "Entry", "Files", "KINDS", "Quote", "ScriptLine", "Sentence", "Shell", "Step", "Steps", "Tally",
    "TextPrinter", "curl_parts", "entries", "entry_of", "html_page", "plain", "print_text", "printed", "say", "shown",
]


class Tally:
    """How many entries there were of each kind."""

    def __init__(self):
        self.kinds = dict.fromkeys(KINDS, 0)

    def take(self, entry):
        """Counts an entry."""
        self.kinds[entry.kind] += 1

    @property
    def edits(self):
        """How many edits were done."""
        return self.kinds["done"]

    @property
    def questions(self):
        """How many entries are no edits."""
        return sum(count for kind, count in self.kinds.items() if kind not in EDITS)

    @property
    def status(self):
        """The exit status: 1 where there is a finding, else 0."""
        return int(any(count for kind, count in self.kinds.items() if KINDS[kind][0] != IN_ORDER))

    def lines(self):
        """What it came to."""
        counts = [f"{count:,} {KINDS[kind][2]}" for kind, count in self.kinds.items() if count and kind not in EDITS]
        said = [counted(self.edits, "edit") + " done."] if self.edits else []
        return said + [counted(self.questions, "question") + (": " + ", ".join(counts) if counts else "") + "."]


# ---- entries


def _again(entry, seen):
    """An entry that refuses what an earlier one did says so, and no more."""
    told = (plain(entry.title), tuple(part.source for part in entry.parts if isinstance(part, Quote)))
    first = seen.setdefault(told, entry.number)
    if first != entry.number:
        entry.parts = [Sentence(say(f"As at line {first}, above."), "means"), entry.parts[-1]]
    return entry


def entries(replies, script=None):
    """The entries of replies, one for each line as it comes, and what a script has that doesn't fit them."""
    files, seen, ended, number, alone = Files(), {}, False, 0, 0
    asked = commands(script) if script else iter(())
    for number, line in enumerate(iter(replies.readline, b""), 1):
        command = next(asked, None)
        alone = alone or (number if script and command is None else 0)
        entry = entry_of(number, line, command, files if script else None)
        if command and entry.kind == "done":
            files.follow(command)
        ended = ended or entry.kind == "ended"
        yield _again(entry, seen) if entry.kind == "refused" else entry
    if alone:
        yield unasked(alone)
    yield from () if ended else _left(asked)


def _left(asked):
    """The entry of the commands that have no reply, or none."""
    first = next(asked, None)
    if first:
        last = first
        for last in asked:
            pass
        yield unanswered(first.number, last.number, first.line)


# ---- reports


def print_text(told, out, colored=False, everything=False):
    """Prints entries as they come, and what they came to; gives the tally. Edits are counted, and shown if asked."""
    printer, tally, spaced = TextPrinter(colored), Tally(), True
    for entry in told:
        tally.take(entry)
        if everything or entry.kind not in EDITS:
            gap = "" if spaced or not entry.parts else "\n"
            spaced = bool(entry.parts)
            out.write(gap + printer.entry(entry) + ("\n" if entry.parts else ""))
            out.flush()
    out.write("".join(line + "\n" for line in ([] if spaced else [""]) + tally.lines()))
    out.flush()
    return tally


def html_page(told, title="Report on a configuration", date="", everything=False):
    """The page of entries, and their tally."""
    told, tally = list(told), Tally()
    for entry in told:
        tally.take(entry)
    return _html_page(told, tally, title, date, everything), tally
