#!/usr/bin/env bash
# Times the branches of rules over all requests:
#
#     bench/branches.sh
#
# The program of bench/branches is proved and built over a copy of the crates that it needs. It tries the rules of a text
# one after another, each over all states that the ones before it leave. Five runs each in turn, and the median counts.
set -euo pipefail

bench=$(dirname -- "$(readlink -f -- "$0")")
top=$(dirname -- "$bench")
room=$(mktemp -d)
trap 'rm -rf -- "$room"' EXIT

cp -a -- "$top/crates" "$top/crates.txt" "$room/"
mkdir -p -- "$room/crates/hc_branches/src" "$room/crates/hc_branches/proofs/config_of"
printf 'hc_branches: %s\n' 'hc_abs_rw hc_addr hc_base hc_cells hc_config hc_dfa hc_include hc_model hc_pat_lang hc_pattern hc_plan
hc_rw_expand hc_rw_sets hc_world' | tr '\n' ' ' >> "$room/crates.txt"
cp -- "$bench/branches/main" "$room/crates/hc_branches/src/main.rt"
cp -- "$bench/branches/config_of" "$room/crates/hc_branches/proofs/config_of/Invariants.antt"
if ! (cd -- "$room/crates/hc_branches" && rt run -- 1 calls) > "$room/built" 2>&1; then
    tail -n 20 -- "$room/built" >&2
    exit 2
fi

PYTHONPATH=$bench python3 - "$room/crates/hc_branches/out/hc_branches" "$room" << 'PYTHON'
import os
import statistics
import subprocess
import sys

from measure import TIME

PROGRAM, ROOM = sys.argv[1:]
RUNS = 5
TIMES = 20
CALLS = 1_000

# The most microseconds of a call.
LIMITS = {"known": 5, "sole": 150, "sole, failed": 150}

TEXTS = {
    "WordPress": r"""
RewriteRule .* - [E=HTTP_AUTHORIZATION:%{HTTP:Authorization}]
RewriteBase /
RewriteRule ^index\.php$ - [L]
RewriteCond %{REQUEST_FILENAME} !-f
RewriteCond %{REQUEST_FILENAME} !-d
RewriteRule . /index.php [L]
""",
    "front controller": r"""
RewriteCond %{DOCUMENT_ROOT}%{REQUEST_URI} !-f
RewriteCond %{DOCUMENT_ROOT}%{REQUEST_URI} !-d
RewriteRule ^ /index.php [QSA,L]
""",
    "100 redirects": "".join(f"RewriteRule ^/old-{at}/(.*)$ /new-{at}/$1 [R=301,L]\n" for at in range(100)),
    "Drupal": r"""
RewriteRule ^ - [E=protossl]
RewriteCond %{HTTPS} on
RewriteRule ^ - [E=protossl:s]
RewriteRule ^(.+/.*|autoload)\.php($|/) - [F]
RewriteCond %{REQUEST_URI} ^(.*)?/(install\.php) [OR]
RewriteCond %{REQUEST_URI} ^(.*)?/(rebuild\.php)
RewriteCond %{REQUEST_URI} !core
RewriteRule ^ %1/core/%2 [L,QSA,R=301]
RewriteCond %{REQUEST_FILENAME} !-f
RewriteCond %{REQUEST_FILENAME} !-d
RewriteCond %{REQUEST_URI} !=/favicon.ico
RewriteRule ^ index.php [L]
""",
    "Joomla": r"""
RewriteCond %{QUERY_STRING} base64_encode[^(]*\([^)]*\) [OR]
RewriteCond %{QUERY_STRING} (<|%3C)([^s]*s)+cript.*(>|%3E) [NC,OR]
RewriteCond %{QUERY_STRING} GLOBALS(=|\[|%[0-9A-Z]{0,2}) [OR]
RewriteCond %{QUERY_STRING} _REQUEST(=|\[|%[0-9A-Z]{0,2})
RewriteRule .* index.php [F]
RewriteRule .* - [E=HTTP_AUTHORIZATION:%{HTTP:Authorization}]
RewriteCond %{REQUEST_URI} !^/index\.php
RewriteCond %{REQUEST_FILENAME} !-f
RewriteCond %{REQUEST_FILENAME} !-d
RewriteRule .* index.php [L]
""",
    "Laravel": r"""
RewriteCond %{HTTP:Authorization} .
RewriteRule .* - [E=HTTP_AUTHORIZATION:%{HTTP:Authorization}]
RewriteCond %{HTTP:x-xsrf-token} .
RewriteRule .* - [E=HTTP_X_XSRF_TOKEN:%{HTTP:X-XSRF-Token}]
RewriteCond %{REQUEST_FILENAME} !-d
RewriteCond %{REQUEST_URI} (.+)/$
RewriteRule ^ %1 [L,R=301]
RewriteCond %{REQUEST_FILENAME} !-d
RewriteCond %{REQUEST_FILENAME} !-f
RewriteRule ^ index.php [L]
""",
    "Nextcloud": r"""
RewriteCond %{HTTP_USER_AGENT} DavClnt
RewriteRule ^$ /remote.php/webdav/ [L,R=302]
RewriteRule .* - [E=HTTP_AUTHORIZATION:%{HTTP:Authorization}]
RewriteRule ^\.well-known/carddav /remote.php/dav/ [R=301,L]
RewriteRule ^\.well-known/caldav /remote.php/dav/ [R=301,L]
RewriteRule ^remote/(.*) remote.php [QSA,L]
RewriteRule ^(build|tests|config|lib|3rdparty|templates)/.* - [R=404,L]
RewriteRule ^ocm-provider/?$ index.php [QSA,L]
RewriteRule ^(autotest|occ|issue|indie|db_|console).* - [R=404,L]
""",
    "Symfony": r"""
RewriteCond %{HTTP:Authorization} .+
RewriteRule ^ - [E=HTTP_AUTHORIZATION:%0]
RewriteCond %{ENV:REDIRECT_STATUS} =""
RewriteRule ^index\.php(/(.*)|$) %{ENV:BASE}/$2 [R=301,L]
RewriteCond %{REQUEST_FILENAME} -f
RewriteRule ^ - [L]
RewriteRule ^ %{ENV:BASE}/index.php [L]
""",
}
IN_SERVER = ("front controller", "100 redirects")
FILES = ["/srv/d/index.php", "/srv/d/a/b.css", "/r/index.php"]


def words_of(name):
    """A program's words that try the rules of a text."""
    if name in IN_SERVER:
        return ["server", f"DocumentRoot /r\nRewriteEngine On\n{TEXTS[name]}", *FILES]
    return ["dir", f"DocumentRoot /r\n<Directory /srv/d>\nRewriteEngine On\n{TEXTS[name]}</Directory>\n", *FILES]


def run(times, words):
    """The microseconds, the answer, and the peak memory in KiB."""
    report = f"{ROOM}/peak"
    before = [TIME, "-f", "%M", "-o", report] if TIME else []
    told = subprocess.run([*before, PROGRAM, str(times), *words], capture_output=True, check=True, text=True)
    peak = int(open(report, encoding="ascii").read().split()[-1]) if TIME else 0
    if told.stdout.startswith("no "):
        sys.exit(f"FAIL  {words[0]}: {told.stdout}")
    return told.stdout.splitlines(), peak


good = True
for name in TEXTS:
    runs = [run(TIMES, words_of(name)) for _ in range(RUNS)]
    took = statistics.median(int(lines[0].split()[0]) for lines, _ in runs) / TIMES
    branches = int(runs[0][0][0].split()[1])
    print(f"{name}: {branches} branches, {took / branches:.0f} microseconds each, {runs[0][1]} KiB")
calls = [run(CALLS, ["calls"])[0] for _ in range(RUNS)]
for at, line in enumerate(calls[0]):
    _, answer, call = line.split(maxsplit=2)
    took = statistics.median(int(lines[at].split()[0]) for lines in calls) / CALLS
    limit = LIMITS.get(call)
    says = "" if limit is None else f", at most {limit}: {'PASS' if took <= limit else 'FAIL'}"
    good = good and (limit is None or took <= limit)
    print(f"{call}: {took:.1f} microseconds ({answer}){says}")
sys.exit(0 if good else 1)
PYTHON
