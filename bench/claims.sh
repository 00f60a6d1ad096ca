#!/usr/bin/env bash
# Times claims and invariants:
#
#     bench/claims.sh [PROGRAM]
#
# Each world is put, and one claim on all its requests is decided; what that takes is the run with it less the one without. Beside
# it stands how many branches the claim has: the least `--cells` for which it isn't too many. Worlds: a site whose `.htaccess` has
# the rules that WordPress writes, alone, with 100 files and with 20 such folders; 1,000 files; 50 rules of a server and a
# `Require`; 100 redirects to the site itself, of which it is claimed that each chain ends; and eleven rules of which each doubles the branches, where 200 and 2,000 are too many. The invariant has ten cells, over
# the world of WordPress with its 100 files. Nothing is built here.
source "$(dirname -- "$(readlink -f -- "$0")")/program.sh"

python3 - "$program" "$room" << 'PYTHON'
import json
import statistics
import sys

from measure import checked_run

MAIN_FILE = "/etc/httpd/conf/httpd.conf"
ROOT = "/var/www/html"
TURNS = 3
MOST = 100_000
SITE = (
    f'DocumentRoot "{ROOT}"\n<Directory "/">\nRequire all denied\n</Directory>\n'
    f'<Directory "{ROOT}">\nOptions FollowSymLinks\nAllowOverride All\nRequire all granted\n</Directory>\n'
)
RULES = (
    "# BEGIN WordPress\n<IfModule mod_rewrite.c>\nRewriteEngine On\n"
    "RewriteRule .* - [E=HTTP_AUTHORIZATION:%{{HTTP:Authorization}}]\nRewriteBase {base}\nRewriteRule ^index\\.php$ - [L]\n"
    "RewriteCond %{{REQUEST_FILENAME}} !-f\nRewriteCond %{{REQUEST_FILENAME}} !-d\nRewriteRule . {base}index.php [L]\n"
    "</IfModule>\n# END WordPress\n"
)


def put(path, text):
    return {"do": "put", "path": path, "text": text}


def folder(base):
    return [put(f"{ROOT}{base}.htaccess", RULES.format(base=base)), put(f"{ROOT}{base}index.php", "")]


def files(count):
    return [put(f"{ROOT}/wp-content/d{at % 10}/f{at}.css", "") for at in range(count)]


def blogs():
    return [put(MAIN_FILE, SITE)] + [line for at in range(20) for line in folder(f"/blog{at}/")]


def plain(count):
    return [put(MAIN_FILE, f"DocumentRoot {ROOT}\n"), *files(count)]


def rules():
    moved = "".join(f"RewriteRule ^/old{at}/(.*)$ /new{at}/$1 [L]\n" for at in range(50))
    main = f"DocumentRoot /srv\nRewriteEngine On\n{moved}<Directory /srv/new7>\nRequire ip 10.0.0.0/8\n</Directory>\n"
    return [put(MAIN_FILE, main), put("/srv/new7/k", "")]


def redirects():
    moved = "".join(f"Redirect /old{at} http://localhost/new{at}\n" for at in range(100))
    return [put(MAIN_FILE, f"DocumentRoot /srv\n{moved}"), put("/srv/new7/k", "")]


def doubling():
    each = "".join(f"RewriteCond %{{HTTP:h{at}}} ^$\nRewriteRule ^ - [E=v{at}:1]\n" for at in range(11))
    return [put(MAIN_FILE, f"DocumentRoot /srv\nRewriteEngine On\n{each}")]


STOPS = {"kind": "stops"}
ENDS = {"kind": "ends", "hosts": [{"host": "localhost", "port": 80, "scheme": "http"}]}
GUARDED = {"kind": "guarded", "target": {"pattern": "^/srv/new7/"}, "file": MAIN_FILE, "line": 54}

# Ten cells where a pass begins: the front controller's, eight by the first letter of a path, and all.
def ten_cells():
    def cell(rank, slots):
        return {"at": "pass", "rank": rank, "slots": slots}

    by_letter = [cell(0, {"path": {"pattern": f"^/{letter}"}}) for letter in "abcdefgh"]
    return [cell(1, {"path": {"literal": "/index.php"}}), *by_letter, cell(0, {})]


# A name, a world, a claim, and the seconds that it may take.
CLAIMS = [
    ("WordPress", [put(MAIN_FILE, SITE), *folder("/")], STOPS, 0.1),
    ("with 100 files", [put(MAIN_FILE, SITE), *folder("/"), *files(100)], STOPS, 0.5),
    ("20 such folders", blogs(), STOPS, 5),
    ("1,000 files", plain(1_000), STOPS, None),
    ("50 rules, guarded", rules(), GUARDED, None),
    ("100 redirects", redirects(), ENDS, None),
]


def run(program, room, lines, cells):
    """The seconds, the peak memory in KiB and the last reply of a run."""
    with open(f"{room}/input", "w", encoding="ascii") as out:
        out.writelines(json.dumps(line, separators=(",", ":")) + "\n" for line in lines)
    told = checked_run(program, f"{room}/input", f"{room}/replies", lambda replies: None, ("--cells", str(cells)))
    with open(f"{room}/replies", encoding="ascii") as replies:
        return *told, replies.read().splitlines()[-1]


def answered(program, room, world, ask, cells):
    """The seconds of the question alone, the peak memory, and its answer."""
    both = [
        (run(program, room, [*world, ask], cells), run(program, room, world, cells)) for _ in range(TURNS)
    ]
    return statistics.median(one[0] - other[0] for one, other in both), both[0][0][1], both[0][0][2]


def decided(program, room, world, claim, cells):
    return answered(program, room, world, {"do": "decide", "claim": claim, "scope": {}}, cells)


def branches(program, room, world, claim):
    """The least number of branches for which they aren't too many, less one."""
    ask = {"do": "decide", "claim": claim, "scope": {}}
    low, high = 1, MOST
    while low < high:
        middle = (low + high) // 2
        if "too_many" in run(program, room, [*world, ask], middle)[2]:
            low = middle + 1
        else:
            high = middle
    return low - 1


def main():
    program, room = sys.argv[1], sys.argv[2]
    failed = False
    for name, world, claim, most in CLAIMS:
        took, peak, answer = decided(program, room, world, claim, MOST)
        count = branches(program, room, world, claim)
        print(f"{name:>20} {took:8.3f} s  {count:>7} branches  {peak:>8} KiB  {answer[:60]}")
        if most is not None:
            failed = failed or took > most
            print(f"{'PASS' if took <= most else 'FAIL'}  {name}: at most {most} s")
    for cells in (200, 2_000):
        took, peak, answer = decided(program, room, doubling(), STOPS, cells)
        print(f"{'too many':>20} {took:8.3f} s  {cells:>7} branches  {peak:>8} KiB  {answer[:60]}")
    world = [put(MAIN_FILE, SITE), *folder("/"), *files(100)]
    ask = {"do": "verify", "claim": STOPS, "scope": {}, "cells": ten_cells()}
    took, peak, answer = answered(program, room, world, ask, MOST)
    print(f"{'ten cells':>20} {took:8.3f} s  {peak:>8} KiB  {answer[:60]}")
    is_well = took <= 1 and answer == '{"accepted":true}'
    failed = failed or not is_well
    print(f"{'PASS' if is_well else 'FAIL'}  ten cells: accepted within 1 s")
    sys.exit(1 if failed else 0)


main()
PYTHON
