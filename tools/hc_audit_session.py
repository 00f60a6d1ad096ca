"""A session with hc over pipes, which can be given up and begun again with the same world."""

import os
import select
import shutil
import signal
import subprocess
import tempfile
import threading
import time

LONGEST_REPLY = 64 * 1024 * 1024
MANY_BYTES = 1 << 16
# How long a line of a world may take at least.
SECONDS_OF_WORLD = 60


class Late(Exception):
    """No reply came in time."""


class Ended(Exception):
    """The program ended, or said too much, before it had replied."""


class WorldLines:
    """The lines of a world, which can be read again and again. They end before `most`, where it is set."""

    def __init__(self, source):
        self._copy = None
        self.most = None
        if source == "-" or not os.path.isfile(source):
            self._copy = tempfile.NamedTemporaryFile(prefix="hc-audit-")
            with open(0 if source == "-" else source, "rb", closefd=source != "-") as given:
                shutil.copyfileobj(given, self._copy)
            self._copy.flush()
        self._path = self._copy.name if self._copy else source
        with open(self._path, "rb"):
            pass

    def __iter__(self):
        with open(self._path, "rb") as lines:
            for number, line in enumerate(lines):
                if number == self.most:
                    return
                yield line if line.endswith(b"\n") else line + b"\n"


class Session:
    """The program and its pipes. A line is asked with `ask`; `begin` comes first, and again behind each fault."""

    def __init__(self, words, seconds):
        self._words = words
        self.seconds = seconds
        self._program = self._writer = None
        self._held = bytearray()
        self._scanned = 0
        self._has_replied = False

    def begin(self, world):
        """Starts the program and hands it the lines of a world; gives each of them with its reply."""
        self.end()
        self._program = subprocess.Popen(
            self._words, stdin=subprocess.PIPE, stdout=subprocess.PIPE, bufsize=0, start_new_session=True
        )
        self._held, self._scanned = bytearray(), 0
        self._send(world)
        for line in world:
            yield line, self._reply(max(self.seconds, SECONDS_OF_WORLD))

    @property
    def is_open(self):
        """Whether there is a program."""
        return self._program is not None

    def ask(self, line):
        """The reply to a line. Behind an exception the program is gone."""
        try:
            self._send([line])
            return self._reply(self.seconds)
        except (Late, Ended):
            self.end()
            raise

    def end(self):
        """Ends the program and all that it started."""
        program, self._program = self._program, None
        if program:
            try:
                os.killpg(program.pid, signal.SIGKILL)
            except (ProcessLookupError, PermissionError):
                pass
            program.wait()
            program.stdout.close()
            self._writer.join(1)
            if not self._writer.is_alive():
                program.stdin.close()

    def _send(self, lines):
        self._writer = threading.Thread(target=_write, args=(self._program.stdin, lines), daemon=True)
        self._writer.start()

    def _reply(self, seconds):
        # The first reply may have to wait until the program is built.
        deadline = time.monotonic() + seconds if self._has_replied else None
        while True:
            end = self._held.find(b"\n", self._scanned)
            if end >= 0:
                reply = bytes(self._held[: end + 1])
                del self._held[: end + 1]
                self._scanned = 0
                self._has_replied = True
                return reply
            self._scanned = len(self._held)
            self._read(deadline)

    def _read(self, deadline):
        left = None if deadline is None else deadline - time.monotonic()
        out = self._program.stdout.fileno()
        if left is not None and (left <= 0 or not select.select([out], [], [], left)[0]):
            raise Late
        read = os.read(out, MANY_BYTES)
        if not read:
            raise Ended("the program ended" + self._status())
        self._held += read
        if len(self._held) > LONGEST_REPLY:
            raise Ended("the program gave a reply that is too long")

    def _status(self):
        try:
            return f" with the status {self._program.wait(1)}"
        except subprocess.TimeoutExpired:
            return ""


def _write(pipe, lines):
    """Writes lines in large pieces; what the program doesn't take is lost."""
    try:
        piece = bytearray()
        for line in lines:
            piece += line
            if len(piece) >= MANY_BYTES:
                _write_all(pipe, piece)
                piece = bytearray()
        _write_all(pipe, piece)
    except (OSError, ValueError):
        pass


def _write_all(pipe, piece):
    rest = memoryview(piece)
    while rest:
        rest = rest[pipe.write(rest):]
