#!/usr/bin/env bash
# The program on streams that fail or are slow, and what it then does:
#
#     bench/streams.sh [PROGRAM]
#
# A sink that is full or closed ends it with status 4, an input that can't be read with status 3; an input that comes a
# byte at a time, and a reader that takes one, change nothing.
source "$(dirname -- "$(readlink -f -- "$0")")/program.sh"

python3 - "$program" << 'PYTHON'
import os
import signal
import subprocess
import sys
import time

PROGRAM = sys.argv[1]
PUT = '{"do":"put","path":"/etc/httpd/conf/httpd.conf","text":"DocumentRoot /srv\\n"}\n'
SCRIPT = (PUT + '{"do":"ask","target":"/a"}\n{"do":"check"}\n{"do":"stats"}\n{"do":"end"}\n').encode()
WANTED = b'{"done":"put"}\n{"outcome":{"not_found":true}}\n{"config":{"hosts":0}}\n{"stats":{"asks":1,"evaluations":1}}\n{"done":"end"}\n'
WRITE_FAULT, READ_FAULT = 4, 3
FAULTS = []


def expect(what, is_so, seen):
    print(f"{'ok   ' if is_so else 'FAIL '} {what}" + ("" if is_so else f": {seen}"))
    if not is_so:
        FAULTS.append(what)


def ignoring():
    """A reader that goes away is told by a fault, and not by a signal."""
    signal.signal(signal.SIGPIPE, signal.SIG_IGN)


plain = subprocess.run([PROGRAM], input=SCRIPT, capture_output=True)
expect("plain: the replies, status 0", (plain.returncode, plain.stdout) == (0, WANTED), plain)

with open("/dev/full", "wb") as full:
    done = subprocess.run([PROGRAM], input=SCRIPT, stdout=full, stderr=subprocess.PIPE)
expect("/dev/full: status 4", done.returncode == WRITE_FAULT, done)

behind, front = os.pipe()
os.close(behind)
done = subprocess.run([PROGRAM], input=SCRIPT, stdout=front, stderr=subprocess.PIPE, preexec_fn=ignoring)
os.close(front)
expect("a closed pipe: status 4", done.returncode == WRITE_FAULT, done)

with open(os.devnull, "wb") as nothing:
    done = subprocess.run([PROGRAM], stdin=os.open("/", os.O_RDONLY), stdout=nothing, stderr=subprocess.PIPE)
expect("an input that can't be read: status 3", done.returncode == READ_FAULT, done)

slow = subprocess.Popen([PROGRAM], stdin=subprocess.PIPE, stdout=subprocess.PIPE, bufsize=0)
for at in range(len(SCRIPT)):
    slow.stdin.write(SCRIPT[at:at + 1])
    if at % 40 == 0:
        time.sleep(0.01)
slow.stdin.close()
said = slow.stdout.read()
expect("a byte at a time: the same replies", (slow.wait(), said) == (0, WANTED), said)

held = subprocess.Popen([PROGRAM], stdin=subprocess.PIPE, stdout=subprocess.PIPE, bufsize=0)
lines = 20_000
many = PUT.encode() + b'{"do":"ask","target":"/a"}\n' * lines
writer = os.fork()
if writer == 0:
    held.stdout.close()
    held.stdin.write(many)
    held.stdin.close()
    os._exit(0)
held.stdin.close()
time.sleep(0.5)
first = held.stdout.read(1)
rest = held.stdout.read()
os.waitpid(writer, 0)
wanted = b'{"done":"put"}\n' + b'{"outcome":{"not_found":true}}\n' * lines
expect("a reader that waits: the same replies", (held.wait(), first + rest) == (0, wanted), len(first + rest))

cut = subprocess.run([PROGRAM], input=SCRIPT[:len(PUT) + 5], capture_output=True)
expect("a line that is cut off: status 6, the replies before it", (cut.returncode, cut.stdout) == (6, b'{"done":"put"}\n'), cut)

sys.exit(1 if FAULTS else 0)
PYTHON
