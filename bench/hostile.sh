#!/usr/bin/env bash
# Hands the program what a hostile script may hold, with a stack of 8 MiB:
#
#     bench/hostile.sh [PROGRAM [WORD]]
#
# Each kind of input comes with 10,000 and with 100,000 of its items (fewer where a line or a path can't hold as many), and an item may
# take 1.3 times as long among the many as among the few, beyond what the program takes without any. Then come the longest ones,
# which fill a line of 16 MiB or a logical line of 1 MiB: no run ends by a signal, and each reply is the one that is wanted. WORD picks the kinds
# whose name has it. Nothing is built here.
source "$(dirname -- "$(readlink -f -- "$0")")/program.sh"
ulimit -s 8192

python3 - "$program" "$room" "${2:-}" << 'PYTHON'
import json
import statistics
import sys

from measure import checked_run, differs

MAIN_FILE = "/etc/httpd/conf/httpd.conf"
ROOT = "DocumentRoot /srv\n"
ENGINE = ROOT + "RewriteEngine On\n"
FEW, MANY = 10_000, 100_000
GROWTH = 1.3
RUNS = 5
# what both sizes take less than this tells nothing of their growth
LEAST_SECONDS = 0.02
NOT_FOUND = '{"outcome":{"not_found":true}}'
FORBIDDEN = '{"outcome":{"status":403}}'
NO_HOSTS = '{"config":{"hosts":0}}'


def put(path, text):
    return {"do": "put", "path": path, "text": text}, '{"done":"put"}'


def listed(path, kind="file"):
    return {"do": "list", "path": path, "kind": kind}, '{"done":"list"}'


def ask(target, reply=NOT_FOUND, **fields):
    return {"do": "ask", "target": target, **fields}, reply


def check(reply=NO_HOSTS):
    return {"do": "check"}, reply


def numbered(line, count):
    """So many lines, each with its number."""
    return "".join(line.replace("#", str(at)) for at in range(count))


def main_file(text, *asked):
    return [put(MAIN_FILE, text), *asked]


def folders(count):
    """A `.htaccess` in each of so many directories below each other."""
    made, asked, path = [put(MAIN_FILE, ROOT + "<Directory /srv>\nAllowOverride All\n</Directory>\n")], "", "/srv"
    for _ in range(count):
        path, asked = path + "/d", asked + "/d"
        made.append(put(path + "/.htaccess", "Require all granted\n"))
    return made + [ask(f"{asked}/f{at}") for at in range(20)]


def rounds(count):
    """So many rules that set a variable each, in 100 rounds."""
    rules = numbered("RewriteRule ^ - [E=v#:x]\n", count)
    return main_file(ENGINE + rules + "RewriteRule ^ - [N=100]\n", ask("/f", '{"outcome":{"limit":"rounds"}}'))


def within_each_other(opening, inside, closing, count):
    return main_file(
        ROOT + '<If "' + opening * count + inside + closing * count + '">\nRequire all denied\n</If>\n', ask("/f", FORBIDDEN)
    )


def joined_expression(test, joint, count):
    return main_file(ROOT + '<If "' + joint.join([test] * count) + '">\nRequire all denied\n</If>\n', ask("/f", FORBIDDEN))


def chain(count):
    """An If that doesn't hold, and so many ElseIf behind it of which the last one does."""
    before = "<If false>\nRequire all granted\n</If>\n" + "<ElseIf false>\nRequire all granted\n</ElseIf>\n" * (count - 1)
    return main_file(ROOT + before + "<ElseIf true>\nRequire all denied\n</ElseIf>\n", ask("/f", FORBIDDEN))


def merged(how, count):
    section = f"<Location />\nAuthMerging {how}\nRequire local\n</Location>\n"
    return main_file(ROOT + section * count, ask("/f", FORBIDDEN))


def merged_in_turn(count):
    both = "<Location />\nAuthMerging Or\nRequire local\n</Location>\n<Location />\nAuthMerging And\nRequire all granted\n</Location>\n"
    return main_file(ROOT + both * (count // 2), ask("/f", FORBIDDEN))


def containers(files, depth):
    """Files that include each other within containers that are open."""
    made = main_file(ROOT + "<Location />\nInclude /i0\n</Location>\n")
    for at in range(files):
        inside = f"Include /i{at + 1}\n" if at + 1 < files else "Require all denied\n"
        made.append(put(f"/i{at}", "<RequireAll>\n" * depth + inside + "</RequireAll>\n" * depth))
    return made + [ask("/f", FORBIDDEN)]


def edits(count):
    made = main_file(ROOT, put("/f", "a\n"))
    edit = {"do": "edit", "path": "/f", "from": 1, "to": 1, "text": "b\n"}, '{"done":"edit"}'
    return made + [edit] * count


# ---- what is given twice, with few and with many items
GROWING = {
    "headers": lambda n: main_file(ROOT, ask("/f", headers={f"h{at}": "v" for at in range(n)})),
    "variables": lambda n: main_file(ENGINE + numbered("RewriteRule ^ - [E=v#:x]\n", n), ask("/f")),
    "variables in one rule": lambda n: main_file(
        ENGINE + "RewriteRule ^ - [" + ",".join(f"E=v{at}:x" for at in range(n // 2)) + "]\n", ask("/f")
    ),
    "defines": lambda n: main_file(ROOT + numbered("Define d# v\n", n) + numbered("Alias /a${d#} /s\n", n), check()),
    "modules": lambda n: main_file(
        ROOT + numbered("LoadModule m#_module x\n", n) + numbered("<IfModule m#_module>\n</IfModule>\n", n), check()
    ),
    "hosts": lambda n: main_file(
        ROOT + numbered("<VirtualHost *:80>\nServerName h#\n</VirtualHost>\n", n), ask("/f", host=f"h{n - 1}")
    ),
    "names of a host": lambda n: main_file(
        ROOT + "<VirtualHost *:80>\n" + numbered("ServerAlias h#\n", n) + "</VirtualHost>\n", ask("/f", host=f"h{n - 1}")
    ),
    "aliases": lambda n: main_file(ROOT + numbered("Alias /a# /s\n", n), ask("/f")),
    "redirects": lambda n: main_file(ROOT + numbered("Redirect /a# /s\n", n), ask("/f")),
    "sections": lambda n: main_file(ROOT + numbered("<Location /a#>\nRequire all granted\n</Location>\n", n), ask("/f")),
    "directories": lambda n: main_file(ROOT + numbered("<Directory /srv/a#>\nRequire all granted\n</Directory>\n", n), ask("/f")),
    "ifs": lambda n: main_file(ROOT + "<If true>\nRequire all granted\n</If>\n" * n, ask("/f")),
    "a chain of ifs": chain,
    "merged trees": lambda n: merged("Or", n),
    "require lines": lambda n: main_file(ROOT + "<Location />\n" + "Require local\n" * n + "</Location>\n", ask("/f", FORBIDDEN)),
    "options": lambda n: main_file(ROOT + "Options +Indexes\n" * n, ask("/f")),
    "rules": lambda n: main_file(ENGINE + "RewriteRule ^/x$ /y\n" * n, ask("/f")),
    "rules of directories that inherit": lambda n: main_file(
        ROOT + "<Directory /srv>\nRewriteEngine On\nRewriteOptions Inherit\nRewriteRule ^x$ y\n</Directory>\n" * n,
        listed("/srv", "dir"),
        ask("/f"),
    ),
    "conditions": lambda n: main_file(ENGINE + "RewriteCond %{HTTPS} =on [OR]\n" * n + "RewriteRule ^ /y\n", ask("/f")),
    "pieces": lambda n: main_file(ENGINE + "RewriteRule ^/x /" + "%{HTTPS}" * n + "\n", ask("/f")),
    "tests of an expression": lambda n: joined_expression("1==1", "||", n),
    "maps": lambda n: main_file(
        ENGINE + numbered("RewriteMap m# int:tolower\n", n) + f"RewriteRule ^ /${{m{n - 1}:A}}\n", ask("/f")
    ),
    "map lines": lambda n: [
        put("/m", numbered("k# v\n", n)),
        *main_file(ENGINE + f"RewriteMap m txt:/m\nRewriteRule ^ /${{m:k{n - 1}}}\n", ask("/f")),
    ],
    "files in a folder": lambda n: main_file(ROOT, *(listed(f"/srv/f{at}") for at in range(n)), ask("/g")),
    "drops": lambda n: main_file(
        ROOT,
        *(listed(f"/srv/d{at}/f") for at in range(n)),
        *(({"do": "drop", "path": f"/srv/d{at}"}, '{"done":"drop"}') for at in range(n)),
    ),
    "files that a wildcard includes": lambda n: main_file(
        ROOT + "Include /i/*.conf\n", *(put(f"/i/f{at}.conf", f"Alias /a{at} /s\n") for at in range(n)), check()
    ),
    "directories that a wildcard includes": lambda n: main_file(
        ROOT + "Include /i/*/x.conf\n", *(put(f"/i/d{at}/x.conf", f"Alias /a{at} /s\n") for at in range(n)), check()
    ),
    "asks": lambda n: main_file(ROOT, *(ask(f"/f{at}") for at in range(n))),
    "edits": edits,
    "addresses of a host": lambda n: main_file(
        ROOT + "<VirtualHost" + " 10.0.0.1:80" * (n // 2) + ">\n</VirtualHost>\n", check('{"config":{"hosts":1}}')
    ),
    "joined lines": lambda n: main_file(ROOT + "#" + "x\\\n" * n + "\n", check()),
}

# ---- the longest: each has to end with the wanted reply
LONGEST = {
    "levels of !": lambda: within_each_other("!", "true", "", 1_000_000),
    "parentheses": lambda: within_each_other("(", "true", ")", 400_000),
    "&& and || within each other": lambda: within_each_other("(true&&(false||", "true", "))", 60_000),
    "|| from the left": lambda: within_each_other("(", "true", "||true)", 120_000),
    "negations within each other": lambda: within_each_other("!(false||!(false||", "true", "))", 50_000),
    "addresses of a block list": lambda: joined_expression("%{REMOTE_ADDR} -ipmatch '192.0.0.0/8'", "||", 25_000),
    "a chain of ifs": lambda: chain(300_000),
    "merged trees": lambda: merged("Or", 250_000),
    "trees merged in turn": lambda: merged_in_turn(200_000),
    "containers over files": lambda: containers(32, 60),
    "headers": lambda: main_file(ROOT, ask("/f", headers={f"h{at}": "v" for at in range(900_000)})),
    "rules": lambda: main_file(ENGINE + "RewriteRule ^/x$ /y\n" * 700_000, ask("/f")),
    "rules in a chain": lambda: main_file(ENGINE + "RewriteRule ^/x$ /y [C]\n" * 600_000, ask("/f")),
    "conditions": lambda: main_file(ENGINE + "RewriteCond %{HTTPS} =on [OR]\n" * 500_000 + "RewriteRule ^ /y\n", ask("/f")),
    "variables": lambda: main_file(ENGINE + numbered("RewriteRule ^ - [E=v#:x]\n", 400_000), ask("/f")),
    "1,000 variables in 100 rounds": lambda: rounds(1_000),
    "sections": lambda: main_file(ROOT + "<If true>\nRequire all granted\n</If>\n" * 350_000, ask("/f")),
    "pieces": lambda: main_file(ENGINE + "RewriteRule ^/x /" + "%{HTTPS}" * 130_000 + "\n", ask("/f")),
    "look-ups": lambda: main_file(ENGINE + "RewriteMap m int:tolower\nRewriteRule ^/x /" + "${m:A}" * 170_000 + "\n", ask("/f")),
    "openings": lambda: main_file(
        "<IfDefine !X>\n" * 1_000_000,
        check('{"refused":{"at":0,"code":4,"field":"","file":"%s","line":1,"name":"UnclosedSection"}}' % MAIN_FILE),
    ),
    "closes": lambda: main_file(
        ROOT + "</x>\n" * 2_000_000,
        check('{"refused":{"at":0,"code":5,"field":"","file":"%s","line":2,"name":"UnmatchedClose"}}' % MAIN_FILE),
    ),
    "JSON arrays": lambda: [
        ("[" * 8_000_000 + "]" * 8_000_000, '{"refused":{"at":0,"code":45,"field":"","file":"","line":0,"name":"BadJson"}}')
    ],
    "nested folders": lambda: folders(1_500),
}


def seconds(program, room, lines, runs=1):
    given, wanted = f"{room}/input", "".join(reply + "\n" for _, reply in lines)
    with open(given, "w", encoding="ascii") as out:
        for command, _ in lines:
            text = command if isinstance(command, str) else json.dumps(command, separators=(",", ":"))
            out.write(text + "\n")
    made = [checked_run(program, given, f"{room}/replies", lambda replies: differs(replies, wanted)) for _ in range(runs)]
    return statistics.median(run[0] for run in made), max(run[1] for run in made)


def growth(program, room, case, least, most):
    """What few and many items take, and how much longer an item takes among the many."""
    without, _ = seconds(program, room, main_file(ROOT), RUNS)
    few, _ = seconds(program, room, case(least), RUNS)
    many, peak = seconds(program, room, case(most), RUNS)
    few, many = few - without, many - without
    grown = (many / most) / (max(few, LEAST_SECONDS * least / most) / least)
    return few, many, peak, grown


def main():
    program, room, word = sys.argv[1:4]
    failed = False
    for name, case in GROWING.items():
        if word not in name:
            continue
        few, many, peak, grown = growth(program, room, case, FEW, MANY)
        holds = grown <= GROWTH or many < LEAST_SECONDS
        failed = failed or not holds
        told = f"{few:7.3f} s of {FEW:,}  {many:7.3f} s of {MANY:,}  {peak:>8} KiB"
        print(f"{'PASS' if holds else 'FAIL'}  {told}  an item {grown:5.2f} times as long: {name}", flush=True)
    for name, case in LONGEST.items():
        if word not in name:
            continue
        took, peak = seconds(program, room, case())
        print(f"PASS  {took:7.3f} s  {peak:>8} KiB: the longest, {name}", flush=True)
    sys.exit(1 if failed else 0)


main()
PYTHON
