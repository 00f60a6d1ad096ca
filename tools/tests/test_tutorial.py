"""Does what docs/TUTORIAL.md says, and compares each reply that it shows with what comes.

A box is a fenced block. What a reader types stands in a box ```sh, as it is typed. The box ```text right behind it,
with nothing but blank lines between, has all that comes back, from both streams. In it

  - a line `...` stands for any lines, or none;
  - a line that ends in ` ...` stands for one that begins with what is before that;
  - each other line stands for itself. At least one does.

A box without a reply stands for commands from which nothing comes. There are no other boxes, so that each is either
done or compared. The commands are run by `sh`, in their order, in one copy of the folders `docs`, `examples` and
`tools`, where `./hc` is the program that the environment variable HC names. A box of commands ends with the status 0,
or with 1, as `tools/show` and `tools/audit` do where there is a finding.

    HC=out/hc_app python3 -m unittest discover -s tools/tests -p test_tutorial.py
"""

import os
import pathlib
import re
import shutil
import subprocess
import tempfile
import unittest

TOP = pathlib.Path(__file__).resolve().parent.parent.parent
PAGE = "docs/TUTORIAL.md"
HC = os.environ.get("HC")
ANY = "..."
FENCE = re.compile(r"```(.*)")
SECONDS = 900


class Wrong(Exception):
    """The page isn't written as it has to be."""


class Step:
    """What is typed, and what comes back: None where nothing is shown."""

    def __init__(self, line, typed):
        self.line, self.typed, self.shown = line, typed, None


def boxes(text):
    """Each box of a page: the line of its fence, its kind, its lines, and whether it stands right behind another."""
    opened, kind, lines, is_behind, found = 0, "", [], False, []
    for number, line in enumerate(text.split("\n"), 1):
        fence = FENCE.fullmatch(line)
        if not opened and fence:
            opened, kind, lines = number, fence[1], []
        elif opened and line == "```":
            found.append((opened, kind, lines, is_behind))
            opened, is_behind = 0, True
        elif opened:
            lines.append(line)
        elif line.strip():
            is_behind = False
            if line.lstrip().startswith(("```", "~~~")) or re.match(r" {4}|\t", line):
                raise Wrong(f"line {number}: a box that isn't read")
    if opened:
        raise Wrong(f"line {opened}: a box without its end")
    return found


def steps_of(text):
    """The steps of a page, in order."""
    steps = []
    for number, kind, lines, is_behind in boxes(text):
        if not any(lines):
            raise Wrong(f"line {number}: an empty box")
        if kind == "sh":
            steps.append(Step(number, "\n".join(lines) + "\n"))
        elif kind != "text":
            raise Wrong(f"line {number}: a box of another kind, {kind!r}")
        elif not steps or not is_behind or steps[-1].shown is not None:
            raise Wrong(f"line {number}: a reply without its commands")
        elif all(line in (ANY, "") for line in lines):
            raise Wrong(f"line {number}: a reply of which nothing is compared")
        else:
            steps[-1].shown = lines
    return steps


def takes(shown, came):
    """Whether a line of the page stands for a line that came."""
    return came.startswith(shown[:-len(ANY)]) if shown.endswith(" " + ANY) else shown == came


def differs(shown, came):
    """The first line of the page, by its number, for which nothing came; None where all that came is shown.

    A line `...` takes as few lines as it can. Whatever it is, the lines up to the next one are looked for as a whole.
    """
    groups, numbers = [[]], [0]
    for number, line in enumerate(shown):
        if line == ANY:
            groups.append([])
            numbers.append(number + 1)
        else:
            groups[-1].append(line)
    at = 0
    for count, (group, number) in enumerate(zip(groups, numbers)):
        is_last = count == len(groups) - 1
        last = len(came) - len(group)
        if count == 0:
            starts = range(0, 1) if not is_last or last == 0 else range(0)
        else:
            starts = range(at, last + 1) if not is_last else range(max(at, last), last + 1)
        fits = (start for start in starts if start <= last and all(map(takes, group, came[start:])))
        at = next((start + len(group) for start in fits), None)
        if at is None:
            return number
    return None


class Page(unittest.TestCase):
    """How a page is read, and when a reply is as it is shown."""

    def test_boxes(self):
        steps = steps_of("a\n```sh\nx\ny\n```\n\n```text\n1\n...\n```\nb\n```sh\nz\n```\n")
        self.assertEqual([(step.line, step.typed, step.shown) for step in steps],
                         [(2, "x\ny\n", ["1", "..."]), (12, "z\n", None)])

    def test_a_page_that_hides_something_is_wrong(self):
        typed, reply = "```sh\nx\n```\n", "```text\n1\n```\n"
        for text in ("```sh\nx\n", "```sh\n```", "```\nx\n```", "```json\nx\n```", "a\n\n    x\n", "~~~sh\nx\n~~~",
                     " ```sh\nx\n ```", reply, typed + "a\n" + reply, typed + reply + reply,
                     typed + "```text\n```", typed + "```text\n...\n\n```"):
            with self.subTest(text):
                self.assertRaises(Wrong, steps_of, text)

    def test_replies(self):
        for shown, came, first in (
            (["a"], ["a"], None), (["a"], ["b"], 0), (["a"], ["a", "b"], 0), (["a", "b"], ["a"], 0), (["a"], [], 0),
            (["..."], [], None), (["...", "b"], ["a", "b"], None), (["...", "b"], ["b", "a"], 1),
            (["a", "..."], ["a"], None), (["a", "..."], ["b", "a"], 0), (["a", "...", "a"], ["a"], 2),
            (["a", "...", "c"], ["a", "b", "b", "c"], None), (["...", "b", "...", "b"], ["b"], 3),
            (["...", "b", "c", "..."], ["b", "a", "b", "c", "d"], None),
            (["...", "b", "...", "a", "..."], ["a", "b"], 3), (["...", "a", "b"], ["a", "b", "a", "b"], None),
            (["a ..."], ["a b"], None), (["a ..."], ["a..."], 0), (["a ...", "..."], ["b"], 0), (["a..."], ["ab"], 0),
        ):
            with self.subTest(shown=shown, came=came):
                self.assertEqual(differs(shown, came), first)


class Tutorial(unittest.TestCase):
    """The page, step by step."""

    def test_it_has_steps(self):
        steps = steps_of((TOP / PAGE).read_text("utf-8"))
        self.assertGreater(sum(step.shown is not None for step in steps), 10)

    @unittest.skipUnless(HC, "HC names no program")
    def test_each_step(self):
        with tempfile.TemporaryDirectory(prefix="tutorial-") as name:
            top = pathlib.Path(name)
            for folder in ("docs", "examples", "tools"):
                shutil.copytree(TOP / folder, top / folder, symlinks=True)
            (top / "hc").symlink_to(os.path.abspath(HC))
            for step in steps_of((top / PAGE).read_text("utf-8")):
                with self.subTest(f"{PAGE}:{step.line}"):
                    self.do(step, top)

    def do(self, step, top):
        done = subprocess.run(["sh", "-c", step.typed], cwd=top, stdin=subprocess.DEVNULL, stdout=subprocess.PIPE,
                              stderr=subprocess.STDOUT, timeout=SECONDS)
        text = done.stdout.decode("utf-8")
        self.assertTrue(text.endswith("\n") or not text, f"the last line has no end:\n{text}")
        came = text.split("\n")[:-1]
        self.assertIn(done.returncode, (0, 1), text)
        if step.shown is None:
            self.assertEqual(came, [], "something came, and the page shows nothing")
            return
        first = differs(step.shown, came)
        if first is not None:
            self.fail(f"nothing came for the lines from here on:\n{step.shown[first]}\nof what came:\n{text}")


if __name__ == "__main__":
    unittest.main()
