#!/usr/bin/env bash
# Times what a session keeps:
#
#     bench/session.sh [PROGRAM [ASKS]]
#
# Two worlds: a site whose `.htaccess` has the rules that WordPress writes, and a host with 1,000 rules of a server, of which the
# last applies. In each, so many asks (20,000): of requests that were not asked before, of requests whose answers are kept, and of
# kept ones behind an edit of a file that they rest on nothing of. Beside them, in the same turns, as many lines `{}`, each refused:
# what a line takes at least. An evaluated ask of the site may take 12 times that, and a kept one twice. Last a line of a main file of
# 100,000 lines is edited, and the next ask reads the file anew. Nothing is built here.
source "$(dirname -- "$(readlink -f -- "$0")")/program.sh"

python3 - "$program" "$room" "${2:-20000}" << 'PYTHON'
import json
import statistics
import sys

from measure import checked_run, differs

MAIN_FILE = "/etc/httpd/conf/httpd.conf"
ROOT = "/var/www/html"
FILES = 1_000
LINES = 100_000
EDITS = 20
TURNS = 5
EVALUATED, KEPT = 12, 2
SITE = (
    f'DocumentRoot "{ROOT}"\n<Directory "/">\nRequire all denied\n</Directory>\n'
    f'<Directory "{ROOT}">\nOptions FollowSymLinks\nAllowOverride All\nRequire all granted\n</Directory>\n'
)
RULES = (
    "# BEGIN WordPress\n<IfModule mod_rewrite.c>\nRewriteEngine On\n"
    "RewriteRule .* - [E=HTTP_AUTHORIZATION:%{HTTP:Authorization}]\nRewriteBase /\nRewriteRule ^index\\.php$ - [L]\n"
    "RewriteCond %{REQUEST_FILENAME} !-f\nRewriteCond %{REQUEST_FILENAME} !-d\nRewriteRule . /index.php [L]\n"
    "</IfModule>\n# END WordPress\n"
)
BAD = '{"refused":{"at":0,"code":46,"field":"do","file":"","line":0,"name":"BadCommand"}}'
DONE = '{"done":"put"}'


def put(path, text):
    return {"do": "put", "path": path, "text": text}, DONE


def file_at(at):
    return f"/wp-content/d{at % 10}/f{at}.css"


def site_world():
    yield put(MAIN_FILE, SITE)
    yield put(ROOT + "/.htaccess", RULES)
    yield put(ROOT + "/index.php", "")
    for at in range(FILES):
        yield put(ROOT + file_at(at), "")


def site_ask(at):
    """Half of them are for files, and half for posts, which restart."""
    if at % 2 == 0:
        target, file = f"{file_at(at % FILES)}?{at}", ROOT + file_at(at % FILES)
    else:
        target, file = f"/2024/post-{at}", ROOT + "/index.php"
    return {"do": "ask", "target": target}, '{"outcome":{"file":{"info":"","path":"%s"}}}' % file


def rules_world():
    failing = "".join(f"RewriteRule ^/none{at}/(.*)$ /none/$1 [L]\n" for at in range(999))
    yield put(
        MAIN_FILE,
        "DocumentRoot /srv\n<VirtualHost *:80>\nRewriteEngine On\n"
        f"{failing}RewriteRule ^/page(.*)$ /hit$1 [L]\n</VirtualHost>\n",
    )


def rules_ask(at):
    return {"do": "ask", "target": f"/page{at}"}, '{"outcome":{"not_found":true}}'


def refused(_):
    return {}, BAD


def elsewhere(at):
    return put("/elsewhere", str(at))


def turns(kind, asked, asks):
    """The lines behind a world, of which the time is told."""
    if kind == "refused":
        return [refused(at) for at in range(asks)]
    if kind == "evaluated":
        return [asked(at) for at in range(asks)]
    if kind == "kept":
        return [asked(at % 500) for at in range(asks)]
    return [elsewhere(at) if at % 2 else asked(at % 500) for at in range(asks)]


def seconds(program, room, world, lines):
    given = [*world, *lines]
    with open(f"{room}/input", "w", encoding="ascii") as out:
        out.writelines(json.dumps(command, separators=(",", ":")) + "\n" for command, _ in given)
    wanted = "".join(reply + "\n" for _, reply in given)
    return checked_run(program, f"{room}/input", f"{room}/replies", lambda replies: differs(replies, wanted))[0]


def microseconds(program, room, world, asked, asks):
    """What each kind of line takes, beyond the world: medians of runs that take turns."""
    kinds = ("refused", "evaluated", "kept", "edited")
    # each answer is kept once before the time of kept ones is taken
    before = {kind: [asked(at) for at in range(500)] if kind in ("kept", "edited") else [] for kind in kinds}
    told = {kind: [] for kind in kinds}
    for _ in range(TURNS):
        for kind in kinds:
            begun = [*world, *before[kind]]
            without = seconds(program, room, begun, [])
            told[kind].append((seconds(program, room, begun, turns(kind, asked, asks)) - without) / asks * 1e6)
    return {kind: statistics.median(told[kind]) for kind in kinds}


def edited_main(program, room):
    """An edit of one line of a large main file and the next ask, in milliseconds."""
    text = "DocumentRoot /srv\n" + "".join(f"Alias /a{at} /srv/a{at}\n" for at in range(LINES - 1))
    world = [put(MAIN_FILE, text)]
    ask = ({"do": "ask", "target": "/x"}, '{"outcome":{"not_found":true}}')
    edit = lambda at: (
        {"do": "edit", "path": MAIN_FILE, "from": 500, "to": 500, "text": f"Alias /b{at} /srv/b\n"},
        '{"done":"edit"}',
    )
    lines = [line for at in range(EDITS) for line in (edit(at), ask)]
    edits = [edit(at) for at in range(EDITS)]
    none, alone, both = (seconds(program, room, world, lines) for lines in ([], edits, lines))
    return (alone - none) / EDITS * 1e3, (both - none) / EDITS * 1e3


def main():
    program, room, asks = sys.argv[1], sys.argv[2], int(sys.argv[3])
    failed = False
    for name, world, asked in (("site", site_world, site_ask), ("rules", rules_world, rules_ask)):
        found = microseconds(program, room, list(world()), asked, asks)
        least = found["refused"]
        for kind, took in found.items():
            print(f"{name:>6} {kind:>10} {took:8.2f} us  {took / least:6.2f} times `{{}}`  {1e6 / took:10,.0f} a second")
        if name == "site":
            for kind, limit in (("evaluated", EVALUATED), ("kept", KEPT)):
                holds = found[kind] <= limit * least
                failed = failed or not holds
                print(f"{'PASS' if holds else 'FAIL'}  {kind}: at most {limit} times")
    edit, both = edited_main(program, room)
    print(f"  main       edit {edit:8.2f} ms, with the next ask {both:8.2f} ms, of {LINES:,} lines")
    sys.exit(1 if failed else 0)


main()
PYTHON
