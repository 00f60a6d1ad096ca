#!/usr/bin/env bash
# Times asks over a main file of many aliases and redirects, and where their time goes:
#
#     bench/serve.sh [PROGRAM [ASKS]]
#
# The main file has 1,000 aliases and 1,000 redirects, of each half by a prefix and half by a pattern. A
# target that none of them meets is asked so many times (100,000), each time with another query, which tries all. What
# else an ask takes is timed under a main file of one line. Nothing is built here.
source "$(dirname -- "$(readlink -f -- "$0")")/program.sh"

python3 - "$program" "$room" "${2:-100000}" << 'PYTHON'
import json
import sys

from measure import run_once

MAIN_FILE = "/etc/httpd/conf/httpd.conf"
ROOT = "DocumentRoot /srv\n"
HALF = 500
TRIED = 4 * HALF

NOT_FOUND = '{"outcome":{"not_found":true}}\n'


def main_text():
    """A main file whose entries meet no asked target."""
    lines = [ROOT]
    for at in range(HALF):
        lines.append(f"Alias /icons{at}/ /usr/share/icons/\n")
        lines.append(f"AliasMatch ^/(user|group)-{at}/(.*)$ /home/$1/$2\n")
        lines.append(f"Redirect permanent /old{at} http://new.example/{at}\n")
        lines.append(f"RedirectMatch ^/([a-z]+)/([0-9]{{4}})/{at}$ /archive/$1?year=$2\n")
    return "".join(lines)


def microseconds(program, room, text, count):
    """The time of one ask under a main file, none of which is kept, and the peak memory in KiB."""
    source, replies = f"{room}/script.jsonl", f"{room}/replies"
    with open(source, "w", encoding="ascii") as out:
        out.write(json.dumps({"do": "put", "path": MAIN_FILE, "text": text}) + "\n")
        for at in range(count):
            out.write(json.dumps({"do": "ask", "target": f"/page/of/the/site/index.html?query={at}"}) + "\n")
    seconds, peak, status = run_once(program, source, replies)
    with open(replies, encoding="ascii") as given:
        if status or given.read() != '{"done":"put"}\n' + NOT_FOUND * count:
            sys.exit(f"FAIL  the program ended with status {status} or another reply")
    return seconds * 1e6 / count, peak


def main():
    program, room, asks = sys.argv[1], sys.argv[2], int(sys.argv[3])
    large = main_text()
    whole, peak = microseconds(program, room, large, asks)
    alone, _ = microseconds(program, room, ROOT, asks)
    matched = whole - alone
    print(f"an ask          {whole:10.2f} us  of {len(large)} bytes, {TRIED} entries  {peak} KiB")
    print(f"  matching      {matched:10.2f} us  {matched * 1e3 / TRIED:.1f} ns an entry")
    print(f"  all else      {alone:10.2f} us")


main()
PYTHON
