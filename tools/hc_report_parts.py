"""What a report is made of, whoever prints it: entries, each with a title and parts in their order."""

from dataclasses import dataclass, field
from typing import List, Optional, Tuple, Union

from hc_report_words import KINDS

Words = Tuple[str, ...]


@dataclass
class Sentence:
    """A sentence. The role is `means` (what it means), `do` (what to do), or `says`."""

    words: Words
    role: str = "says"


@dataclass
class Quote:
    """A line of a file: where it stands, what it says (empty if not known), and the column of a byte in it.

    The place is empty where the text stands in no file.
    """

    place: str
    source: str
    caret: Optional[int] = None


@dataclass
class Step:
    """A step on the way to an answer: a line that is quoted, or none, and what came of it."""

    words: Words
    quote: Optional[Quote] = None


@dataclass
class Steps:
    """Steps in their order, under a title; `more` is how many aren't told."""

    title: Words
    steps: List[Step]
    more: int = 0


@dataclass
class Shell:
    """A line to copy, as one of a shell, under a title."""

    title: Words
    line: str


@dataclass
class ScriptLine:
    """A line to copy into a script, under a title."""

    title: Words
    line: str


Part = Union[Sentence, Quote, Steps, Shell, ScriptLine]


@dataclass
class Entry:
    """A reply: its line, its kind (one of `KINDS`), what it says, and its parts."""

    number: int
    kind: str
    title: Words
    parts: List[Part] = field(default_factory=list)

    @property
    def grade(self):
        """How much it weighs; IN_ORDER where it is no finding."""
        return KINDS[self.kind][0]

    @property
    def label(self):
        """The word in front of its title, or the empty text."""
        return KINDS[self.kind][1]
