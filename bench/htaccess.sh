#!/usr/bin/env bash
# Times asks that read a `.htaccess` in each directory of their file name:
#
#     bench/htaccess.sh [PROGRAM [ASKS]]
#
# 10,000 directories, eight below each other, have a `.htaccess` of three lines each. So many asks (20,000) go to a file
# in the deepest of each eight, in turn, once where all is allowed and once under `AllowOverride None`, where no file
# is read; what one takes more than the other is what eight texts take, most of them kept. Each chain asked once has all of its
# texts read. Nothing is built here.
source "$(dirname -- "$(readlink -f -- "$0")")/program.sh"

python3 - "$program" "$room" "${2:-20000}" << 'PYTHON'
import json
import statistics
import sys

from measure import checked_run, differs

MAIN_FILE = "/etc/httpd/conf/httpd.conf"
DIRECTORIES = 10_000
DEPTH = 8
TEXT = "# of this directory\nOptions -Indexes\nRequire all granted\n"
TURNS = 3


def main_text(allowed):
    return f'DocumentRoot /srv\n<Directory "/srv/*">\nAllowOverride {allowed}\n</Directory>\n'


def put(path, text):
    return {"do": "put", "path": path, "text": text}


def chain(at):
    """The directories of a file name, each below the one before it."""
    names = [f"c{at}", *(f"d{level}" for level in range(1, DEPTH))]
    return ["/" + "/".join(names[: level + 1]) for level in range(DEPTH)]


def write_input(path, allowed, asks):
    chains = [chain(at) for at in range(DIRECTORIES // DEPTH)]
    commands = [put(MAIN_FILE, main_text(allowed))]
    for directories in chains:
        commands += [put(f"/srv{directory}/.htaccess", TEXT) for directory in directories]
        commands.append(put(f"/srv{directories[-1]}/f", ""))
    wanted = ['{"done":"put"}'] * len(commands)
    for at in range(asks):
        file = chains[at % len(chains)][-1] + "/f"
        # with a query of its own, so that no answer is kept
        commands.append({"do": "ask", "target": f"{file}?{at}"})
        wanted.append('{"outcome":{"file":{"info":"","path":"/srv%s"}}}' % file)
    with open(path, "w", encoding="ascii") as out:
        out.writelines(json.dumps(command, separators=(",", ":")) + "\n" for command in commands)
    return "\n".join(wanted) + "\n"


def seconds(program, room, allowed, asks):
    """The median of some runs, less what the puts take, and the peak memory in KiB."""
    told = []
    for count in (0, asks):
        wanted = write_input(f"{room}/input", allowed, count)
        runs = [
            checked_run(program, f"{room}/input", f"{room}/replies", lambda replies: differs(replies, wanted))
            for _ in range(TURNS)
        ]
        told.append((statistics.median(run[0] for run in runs), min(run[1] for run in runs)))
    return told[1][0] - told[0][0], told[1][1]


program, room, asks = sys.argv[1], sys.argv[2], int(sys.argv[3])
without, _ = seconds(program, room, "None", asks)
whole, peak = seconds(program, room, "All", asks)
print(f"an ask            {whole / asks * 1e6:8.2f} us  {asks} asks  {peak} KiB")
print(f"  without texts   {without / asks * 1e6:8.2f} us")
print(f"  a text          {(whole - without) / asks / DEPTH * 1e6:8.2f} us")
# each chain once: all of its texts are read
once = DIRECTORIES // DEPTH
anew, _ = seconds(program, room, "All", once)
alone, _ = seconds(program, room, "None", once)
print(f"  a text read     {(anew - alone) / once / DEPTH * 1e6:8.2f} us")
PYTHON
