#!/usr/bin/env bash
# Times the program on a growing tree and checks that time and memory stay within their limits:
#
#     bench/first_path.sh [PROGRAM]
#
# Each input puts a main file, then small files in 1,000 folders, and asks of each of those. It runs
# on 10,000 and on 100,000 lines, five times each in turn, and the median counts. Nothing is built here.
source "$(dirname -- "$(readlink -f -- "$0")")/program.sh"

python3 - "$program" "$room" << 'PYTHON'
import json
import os
import sys

from measure import judge, measured

FOLDERS = 1_000
SIZES = (10_000, 100_000)

# The words of a reply that gives no answer.
NO_ANSWER = {"no_memory", "refused"}

# How much longer a line may take on the larger input.
GROWTH = 1.5
# Peak memory: this many times the bytes of the input, and the rest.
MEMORY_PER_BYTE = 3
MEMORY_KIB = 64 * 1024

MAIN_FILE = {
    "do": "put",
    "path": "/etc/httpd/conf/httpd.conf",
    "text": "DocumentRoot /var/www\nAlias /image /ftp/pub/image\n",
}


def commands(lines):
    """The main file, the puts, and an ask of each file. Where a line is left, it asks once more."""
    yield MAIN_FILE
    files = [f"/d{at % FOLDERS}/f{at // FOLDERS}.html" for at in range((lines - 1) // 2)]
    for at, file in enumerate(files):
        yield {"do": "put", "path": f"/var/www{file}", "text": f"<p>page {at}</p>\n"}
    asked = [*files, *files[: lines - 1 - 2 * len(files)]]
    for file in asked:
        yield {"do": "ask", "target": file}


def write_input(path, lines):
    with open(path, "w", encoding="ascii") as out:
        for command in commands(lines):
            out.write(json.dumps(command, separators=(",", ":")) + "\n")
    return os.path.getsize(path)


def faults_of(replies, lines):
    """What is wrong with the replies: their number, or one that gives no answer."""
    count, reply = 0, "\n"
    with open(replies, encoding="utf-8") as given:
        for count, reply in enumerate(given, 1):
            if not NO_ANSWER.isdisjoint(json.loads(reply)):
                return f"reply {count} is {reply[:200]}"
    if count != lines:
        return f"{count} replies to {lines} lines"
    return None if reply.endswith("\n") else "the last reply has no end of line"


def rate(lines, size, seconds):
    return f"{lines / seconds:.0f} lines/s"


found = measured(*sys.argv[1:], SIZES, write_input, faults_of, rate)
judge(found, GROWTH, MEMORY_PER_BYTE, MEMORY_KIB)
PYTHON
