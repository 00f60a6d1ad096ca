"""Entries as text for a terminal or a file."""

from hc_report_parts import Quote, ScriptLine, Sentence, Shell, Steps
from hc_report_texts import Code, columns
from hc_report_words import BROKEN, GRAVE, IN_ORDER, NOTE, OPEN, UNKNOWN

INDENT = "    "

BOLD, DIM, CYAN = "1", "2", "36"
COLORS = {GRAVE: "1;31", BROKEN: "1;31", OPEN: "1;33", UNKNOWN: "1;35", NOTE: "1;36", IN_ORDER: "1;32"}


class TextPrinter:
    """Prints entries, with colours or without."""

    def __init__(self, colored=False):
        self.colored = colored

    def paint(self, text, color):
        """A text in a colour, where there are any."""
        return f"\x1b[{color}m{text}\x1b[0m" if self.colored and text else str(text)

    def words(self, sentence):
        """A sentence in one line."""
        return "".join(self.paint(span, CYAN) if isinstance(span, Code) else span for span in sentence)

    def entry(self, entry):
        """The text of an entry, each line with its end."""
        label = self.paint(entry.label + ":", COLORS[entry.grade]) + " " if entry.label else ""
        at = self.paint(f"[{entry.number}]", DIM) + " " if entry.number else ""
        lines = [f"{at}{label}{self.words(entry.title)}"]
        for part in entry.parts:
            lines += [INDENT + line for line in self._part(part)]
        return "".join(line + "\n" for line in lines)

    def _part(self, part):
        if isinstance(part, Sentence):
            front = self.paint("To do: ", BOLD) if part.role == "do" else ""
            return [front + self.words(part.words)]
        if isinstance(part, Quote):
            return self._quote(part)
        if isinstance(part, (Shell, ScriptLine)):
            return [self.words(part.title), INDENT + part.line]
        return self._steps(part) if isinstance(part, Steps) else []

    def _quote(self, quote):
        front = quote.place + "  " if quote.place else ""
        lines = [INDENT + self.paint(front, DIM) + self.paint(quote.source, BOLD)]
        if quote.caret is not None:
            lines.append(INDENT + " " * (columns(front) + quote.caret) + self.paint("^", COLORS[GRAVE]))
        return lines

    def _steps(self, steps):
        lines = [self.words(steps.title)]
        wide = len(str(len(steps.steps)))
        for number, step in enumerate(steps.steps, 1):
            quoted = ""
            if step.quote:
                quoted = self.paint(step.quote.place, DIM) + " "
                quoted += self.paint(step.quote.source, BOLD) + " " if step.quote.source else ""
            lines.append(f"{INDENT}{number:>{wide}}. {quoted}{self.words(step.words)}")
        return lines + ([f"{INDENT}.. and {steps.more:,} more that aren't told"] if steps.more else [])
