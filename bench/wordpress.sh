#!/usr/bin/env bash
# Times asks of a site whose `.htaccess` has the rules that WordPress writes:
#
#     bench/wordpress.sh [PROGRAM [ASKS]]
#
# 1,000 files stand below the root. So many asks (20,000), half of them for files and half for posts, which restart with
# /index.php, are asked in one session; and asks for files alone and for posts alone, so many each, once with the rules, once
# with RewriteEngine Off and once under `AllowOverride None`, where the `.htaccess` isn't read. What one takes more than
# another is what a step takes. Nothing is built here.
source "$(dirname -- "$(readlink -f -- "$0")")/program.sh"

python3 - "$program" "$room" "${2:-20000}" << 'PYTHON'
import json
import statistics
import sys

from measure import checked_run, differs

MAIN_FILE = "/etc/httpd/conf/httpd.conf"
ROOT = "/var/www/html"
FILES = 1_000
TURNS = 3
RULES = (
    "# BEGIN WordPress\n<IfModule mod_rewrite.c>\nRewriteEngine {engine}\n"
    "RewriteRule .* - [E=HTTP_AUTHORIZATION:%{{HTTP:Authorization}}]\nRewriteBase /\nRewriteRule ^index\\.php$ - [L]\n"
    "RewriteCond %{{REQUEST_FILENAME}} !-f\nRewriteCond %{{REQUEST_FILENAME}} !-d\nRewriteRule . /index.php [L]\n"
    "</IfModule>\n# END WordPress\n"
)
FOUND = '{"outcome":{"file":{"info":"","path":"%s"}}}'
MISSING = '{"outcome":{"not_found":true}}'


def main_text(allowed):
    return (
        f'DocumentRoot "{ROOT}"\n<Directory "/">\nRequire all denied\n</Directory>\n'
        f'<Directory "{ROOT}">\nOptions FollowSymLinks\nAllowOverride {allowed}\nRequire all granted\n</Directory>\n'
    )


def file_at(at):
    return f"/wp-content/d{at % 10}/f{at}.css"


def asked(kind, at):
    """A target, and the file that it gets where rules run."""
    if kind == "files" or (kind == "both" and at % 2 == 0):
        # with a query of its own, so that no answer is kept
        return f"{file_at(at % FILES)}?{at}", ROOT + file_at(at % FILES), True
    return f"/2024/post-{at}", ROOT + "/index.php", False


def write_input(path, allowed, engine, kind, asks):
    commands = [
        {"do": "put", "path": MAIN_FILE, "text": main_text(allowed)},
        {"do": "put", "path": ROOT + "/.htaccess", "text": RULES.format(engine=engine)},
        {"do": "put", "path": ROOT + "/index.php", "text": ""},
    ]
    commands += [{"do": "put", "path": ROOT + file_at(at), "text": ""} for at in range(FILES)]
    wanted = ['{"done":"put"}'] * len(commands)
    run = allowed == "All" and engine == "On"
    for at in range(asks):
        target, file, there = asked(kind, at)
        commands.append({"do": "ask", "target": target})
        wanted.append(FOUND % file if run or there else MISSING)
    with open(path, "w", encoding="ascii") as out:
        out.writelines(json.dumps(command, separators=(",", ":")) + "\n" for command in commands)
    return "\n".join(wanted) + "\n"


def microseconds(program, room, allowed, engine, kind, asks):
    """The median of some runs, less what the puts take, an ask, and the peak memory in KiB."""
    told = []
    for count in (0, asks):
        wanted = write_input(f"{room}/input", allowed, engine, kind, count)
        runs = [
            checked_run(program, f"{room}/input", f"{room}/replies", lambda replies: differs(replies, wanted))
            for _ in range(TURNS)
        ]
        told.append((statistics.median(run[0] for run in runs), min(run[1] for run in runs)))
    return (told[1][0] - told[0][0]) / asks * 1e6, told[1][1]


program, room, asks = sys.argv[1], sys.argv[2], int(sys.argv[3])
whole, peak = microseconds(program, room, "All", "On", "both", asks)
print(f"an ask                {whole:8.2f} us  {asks} asks  {peak} KiB")
for kind in ("files", "posts"):
    plain, _ = microseconds(program, room, "None", "On", kind, asks)
    read, _ = microseconds(program, room, "All", "Off", kind, asks)
    ruled, _ = microseconds(program, room, "All", "On", kind, asks)
    print(f"  for {kind}           {ruled:8.2f} us")
    print(f"    without .htaccess {plain:8.2f} us")
    print(f"    its text          {read - plain:8.2f} us")
    print(f"    its rules         {ruled - read:8.2f} us")
PYTHON
