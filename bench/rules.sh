#!/usr/bin/env bash
# Times asks that run the rules of a server:
#
#     bench/rules.sh [PROGRAM [ASKS]]
#
# A host has 50 rules, and then 1,000, of which the last applies. So many asks (20,000) in all go to it with its engine on, and as
# many checks read the configuration alone, in turn: what an ask takes more than a check, by the least of some runs, is what it
# takes beyond reading. What a rule takes that fails at its first bytes, or somewhere in the text, comes from requests of 1 and of
# 1,000 rounds, each of which goes past 1,000 such rules. Last come requests of 1 and of 4,999 rounds and back, whose peak memory
# has to be about the same. Nothing is built here.
source "$(dirname -- "$(readlink -f -- "$0")")/program.sh"

python3 - "$program" "$room" "${2:-20000}" << 'PYTHON'
import json
import sys

from measure import checked_run, differs

MAIN_FILE = "/etc/httpd/conf/httpd.conf"
COUNTS = (50, 1_000)
FAILING = 1_000
TURNS = 5
ROUNDS = (1, 4_999)
CHECK = ({"do": "check"}, '{"config":{"hosts":1}}')


def put(text):
    return {"do": "put", "path": MAIN_FILE, "text": text}


def main_text(engine, rules):
    failing = "".join(f"RewriteRule ^/none{at}/(.*)$ /none/$1 [L]\n" for at in range(rules - 1))
    return (
        f"DocumentRoot /srv\n<VirtualHost *:80>\nRewriteEngine {engine}\n"
        f"{failing}RewriteRule ^/page(.*)$ /hit$1 [L]\n</VirtualHost>\n"
    )


def not_found(target):
    return ({"do": "ask", "target": target}, '{"outcome":{"not_found":true}}')


def timed(program, room, main, pairs):
    """The seconds and the peak memory in KiB of a main file and these commands, with their replies."""
    wanted = "".join(reply + "\n" for reply in ['{"done":"put"}', *(pair[1] for pair in pairs)])
    with open(f"{room}/input", "w", encoding="ascii") as out:
        out.writelines(json.dumps(command) + "\n" for command in [put(main), *(pair[0] for pair in pairs)])
    return checked_run(program, f"{room}/input", f"{room}/replies", lambda replies: differs(replies, wanted))


def rules_timed(program, room, rules, asks):
    pages = [not_found(f"/page{at}") for at in range(asks // TURNS)]
    main = main_text("On", rules)
    checks, runs = [], []
    for _ in range(TURNS):
        checks.append(timed(program, room, main, [CHECK] * len(pages))[0])
        runs.append(timed(program, room, main, pages))
    took = min(run[0] for run in runs) - min(checks)
    print(f"{rules:5} rules: an ask beyond reading {took / len(pages) * 1e6:9.2f} us, {runs[0][1]} KiB")


def failing_timed(program, room, name, pattern):
    rules = "".join(f"RewriteRule {pattern % at} -\n" for at in range(FAILING))
    main = f"DocumentRoot /srv\nRewriteEngine On\n{rules}RewriteRule ^(/x*)x$ $1 [N]\n"
    one, many = (
        min(timed(program, room, main, [not_found("/" + "x" * rounds)])[0] for _ in range(TURNS))
        for rounds in (1, FAILING)
    )
    print(f"a rule that fails {name}: {(many - one) / FAILING / (FAILING - 1) * 1e9:6.1f} ns")


def rounds_timed(program, room, rounds):
    main = "DocumentRoot /srv\nRewriteEngine On\nRewriteRule ^(/y*)x(.*)$ $1y$2 [N]\nRewriteRule ^(.*)y$ $1 [N]\n"
    seconds, peak = timed(program, room, main, [not_found("/" + "x" * rounds + "z" * (4_999 - rounds))])
    print(f"{rounds:5} rounds and back: {seconds:6.3f} s, {peak} KiB")


program, room, asks = sys.argv[1], sys.argv[2], int(sys.argv[3])
for rules in COUNTS:
    rules_timed(program, room, rules, asks)
failing_timed(program, room, "at its first bytes", "^/n%d/")
failing_timed(program, room, "behind them       ", "n%d$")
for rounds in ROUNDS:
    rounds_timed(program, room, rounds)
PYTHON
