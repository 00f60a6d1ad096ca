#!/usr/bin/env bash
# Times the reading of a large main file and checks that time and memory stay within their limits:
#
#     bench/lines.sh [PROGRAM]
#
# The main file has 10,000 and 1,000,000 physical lines: a third are comments, a third inert
# directives with quoted words, some of them joined, and the rest are `Alias` lines. It is put once
# and read at each of three asks. Five runs each in turn, and the median
# counts. Nothing is built here.
source "$(dirname -- "$(readlink -f -- "$0")")/program.sh"

python3 - "$program" "$room" << 'PYTHON'
import json
import sys

from measure import differs, judge, measured

ASKS = 3
SIZES = (10_000, 1_000_000)

# How much longer a line may take in the larger file.
GROWTH = 1.3
# Peak memory: this many times the bytes of the text, and the rest.
MEMORY_PER_BYTE = 6
MEMORY_KIB = 64 * 1024

MAIN_FILE = "/etc/httpd/conf/httpd.conf"


def text_of(lines):
    """A main file of so many physical lines."""
    made = ["DocumentRoot /srv"]
    while len(made) < lines:
        at = len(made)
        if at % 3 == 0:
            made.append(f"# line {at}")
        elif at % 3 == 1:
            made.append('User "a b"' if at % 4 else 'User "a b" \\')
        else:
            made.append(f"Alias /{at} /b")
    made[-1] = "# the end"
    return "\n".join(made) + "\n"


def write_input(path, lines):
    text = text_of(lines)
    commands = [{"do": "put", "path": MAIN_FILE, "text": text}]
    # another main file and back: the text is read anew at each ask
    for _ in range(ASKS):
        commands += [{"do": "main", "path": "/other"}, {"do": "main", "path": MAIN_FILE}]
        commands.append({"do": "ask", "target": "/none"})
    with open(path, "w", encoding="ascii") as out:
        for command in commands:
            out.write(json.dumps(command, separators=(",", ":")) + "\n")
    return len(text)


def faults_of(replies, _):
    wanted = '{"done":"put"}\n' + ('{"done":"main"}\n' * 2 + '{"outcome":{"not_found":true}}\n') * ASKS
    return differs(replies, wanted)


def rate(lines, size, seconds):
    return f"{ASKS * size / seconds / 1e6:.1f} MB/s read"


found = measured(*sys.argv[1:], SIZES, write_input, faults_of, rate)
judge(found, GROWTH, MEMORY_PER_BYTE, MEMORY_KIB)
PYTHON
