#!/usr/bin/env bash
# Times the reading of many included files and checks that time and memory stay within their limits:
#
#     bench/include.sh [PROGRAM]
#
# The main file includes `sites/*.conf`: 1,000 and then 10,000 files of twenty lines each, among them
# a variable, a condition and `Alias` lines. They are put once and checked ten times. Five runs
# each in turn, and the median counts. Nothing is built here.
source "$(dirname -- "$(readlink -f -- "$0")")/program.sh"

python3 - "$program" "$room" << 'PYTHON'
import json
import sys

from measure import differs, judge, measured

CHECKS = 10
LINES_A_FILE = 20
# 1,000 and 10,000 files.
SIZES = (1_000 * LINES_A_FILE, 10_000 * LINES_A_FILE)

# How much longer a line may take with the larger number of files.
GROWTH = 1.3
# Peak memory: this many times the bytes of the texts, and the rest.
MEMORY_PER_BYTE = 30
MEMORY_KIB = 64 * 1024

MAIN_FILE = "/etc/httpd/conf/httpd.conf"
MAIN_TEXT = "ServerRoot /etc/httpd\nDefine BASE /srv\nDocumentRoot /srv\nInclude sites/*.conf\n"


def text_of(at):
    """A file of twenty lines."""
    made = [f"# site {at}", f"<IfModule mod_alias.c>", f"    Alias /s{at}/img ${{BASE}}/s{at}/img", "</IfModule>"]
    while len(made) < LINES_A_FILE:
        made.append("ServerSignature Off" if len(made) % 2 else f"Alias /s{at}/{len(made)} /srv/s{at}")
    return "\n".join(made) + "\n"


def puts(lines):
    yield MAIN_FILE, MAIN_TEXT
    for at in range(lines // LINES_A_FILE):
        yield f"/etc/httpd/sites/s{at:05}.conf", text_of(at)


def write_input(path, lines):
    size = 0
    with open(path, "w", encoding="ascii") as out:
        for file, text in puts(lines):
            size += len(text)
            out.write(json.dumps({"do": "put", "path": file, "text": text}) + "\n")
        # another text of the main file has everything read anew
        for at in range(CHECKS):
            out.write(json.dumps({"do": "put", "path": MAIN_FILE, "text": f"{MAIN_TEXT}# {at}\n"}) + "\n")
            out.write('{"do":"check"}\n')
    return size


def faults_of(replies, lines):
    wanted = '{"done":"put"}\n' * (lines // LINES_A_FILE + 1) + '{"done":"put"}\n{"config":{"hosts":0}}\n' * CHECKS
    return differs(replies, wanted)


def rate(lines, size, seconds):
    return f"{CHECKS * lines / seconds:.0f} lines/s"


found = measured(*sys.argv[1:], SIZES, write_input, faults_of, rate)
judge(found, GROWTH, MEMORY_PER_BYTE, MEMORY_KIB)
PYTHON
