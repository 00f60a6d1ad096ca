#!/usr/bin/env bash
# Refuses each allocation of the program in turn, alone and with one of the next behind it, and checks what it then
# answers:
#
#     bench/refused_memory.sh [PROGRAM [PAIRS]]
#
# With PAIRS each allocation is refused once more with the next one, with the one behind that, and so on up to so many
# (0 without it).
#
# A run in which one allocation is refused either ends with status 5 and nothing written, or answers
# each line; and a line that was answered `no_memory` has changed nothing: without it, the other lines
# have the same replies. One script has claims (one in 211 of its allocations is refused), the other all other commands,
# a `.htaccess`, rules, a map and a trail; `stats` stands behind each line. Nothing is built here but a small library
# that refuses the allocations.
source "$(dirname -- "$(readlink -f -- "$0")")/program.sh"

cat > "$room/refuse.c" << 'C'
#include <errno.h>
#include <stdlib.h>

extern void *__libc_malloc(size_t), *__libc_realloc(void *, size_t);
extern void *__libc_calloc(size_t, size_t), *__libc_memalign(size_t, size_t);

static long calls, refused = -1, also;

static long number(const char *name)
{
    const char *at = getenv(name);
    return at ? atol(at) : 0;
}

static int refuse(void)
{
    if (refused < 0) {
        refused = number("REFUSE_AT");
        also = number("REFUSE_ALSO");
    }
    calls++;
    if (calls == refused || calls == also) {
        errno = ENOMEM;
        return 1;
    }
    return 0;
}

void *malloc(size_t n) { return refuse() ? 0 : __libc_malloc(n); }
void *realloc(void *p, size_t n) { return refuse() ? 0 : __libc_realloc(p, n); }
void *calloc(size_t a, size_t b) { return refuse() ? 0 : __libc_calloc(a, b); }
void *aligned_alloc(size_t a, size_t n) { return refuse() ? 0 : __libc_memalign(a, n); }
int posix_memalign(void **p, size_t a, size_t n)
{
    if (refuse())
        return ENOMEM;
    *p = __libc_memalign(a, n);
    return *p ? 0 : ENOMEM;
}
C
gcc -O1 -shared -fPIC -o "$room/refuse.so" "$room/refuse.c"

python3 - "$program" "$room/refuse.so" "${2:-0}" << 'PYTHON'
import collections
import os
import subprocess
import sys

PROGRAM, LIBRARY = sys.argv[1:3]
PAIRS = int(sys.argv[3])
NO_MEMORY = '{"no_memory":true}'
# So many runs in a row that lose nothing are taken for the end.
QUIET = 5

SCRIPT = r"""
{"do":"ask","target":"/a"}
{"do":"put","path":"/etc/httpd/conf/httpd.conf","text":"# a comment\n\n<Directory /x>\nListen 80\n</Directory>\n"}
{"do":"ask","target":"/a"}
{"do":"put","path":"/etc/httpd/conf/httpd.conf","text":"documentroot \\\n \"/s\\\\rv\"\nDocumentRoot /srv\r\nALIAS /i/ \\\n'/srv/'\nAlias /j /a/b\nListen 80\n"}
{"do":"put","path":"/srv/x/y/z/f","text":"one"}
{"do":"put","path":"/srv/x/y/z/f/g","text":""}
{"do":"put","path":"/srv/x/y/w/f","text":"one"}
{"do":"put","path":"/srv","text":""}
{"do":"put","path":"/srv/x/y/z/f","text":"two"}
{"do":"put","path":"/srv/f","text":"two","\u00e9\\":0}
{"do":"ask","target":"/x/y/z/f/more"}
{"do":"ask","target":"/x/y/q"}
{"do":"ask","target":"/i/x/y/w"}
{"do":"ask","target":"/x/y/"}
{"do":"ask","target":"/j"}
[1,{"a":"b"}]
nonsense
{"do":"ask","target":"/x/y/z/f"}
{"do":"ask","target":"/x/y/w/f"}
{"do":"put","path":"/etc/httpd/conf/httpd.conf","text":"DocumentRoot /srv\nInclude /i/*.conf\n<Directory /srv>\nAllowOverride All\n</Directory>\nRewriteEngine On\nRewriteMap m txt:/m\nRewriteCond %{HTTP:X} ^(a+)$ [OR]\nRewriteCond %{REQUEST_URI} !-f\nRewriteRule ^/r/(.*)$ /x/$1?%{ENV:v}${m:k|d} [E=v:$1,QSA]\n"}
{"do":"put","path":"/i/a.conf","text":"Define d e\n<Location /x>\nAuthMerging Or\nRequire ip 192.0.2\n</Location>\n<If \"%{REMOTE_ADDR} -ipmatch '10.0.0.0/8' || !(%{QUERY_STRING} =~ /z/i)\">\nRequire all granted\n</If>\n<ElseIf true>\nRequire local\n</ElseIf>\n"}
{"do":"put","path":"/m","text":"k v\n"}
{"do":"check"}
{"do":"put","path":"/srv/x/.htaccess","text":"RewriteEngine On\nRewriteRule ^q/(.*)$ y/$1 [L]\nRequire method GET\n"}
{"do":"ask","target":"/r/y/z/f?q=1","headers":{"X":"aa","y":"b"},"trail":true}
{"do":"ask","target":"/x/q/z/f","trail":true}
{"do":"ask","target":"/x/q/z/f"}
{"do":"edit","path":"/srv/x/.htaccess","from":3,"to":3,"text":"Require all denied\n"}
{"do":"ask","target":"/x/q/z/f","client":"10.1.2.3"}
{"do":"list","path":"/srv/x/q","kind":"dir"}
{"do":"drop","path":"/srv/x/y"}
{"do":"ask","target":"/x/y/z/f"}
{"do":"put","path":"/i/b.conf","text":"Redirect /t http://localhost/u\nRedirect permanent /u http://localhost/x/q\n"}
{"do":"follow","target":"/t","hosts":[{"host":"localhost","port":80,"scheme":"http"}]}
{"do":"follow","target":"/t","hosts":[{"host":"a","port":80,"scheme":"https"},{"host":"localhost","port":80,"scheme":"http"}]}
{"do":"main","path":"/i/a.conf"}
{"do":"ask","target":"/x"}
{"do":"main","path":"/etc/httpd/conf/httpd.conf"}
{"do":"ask","target":"/x/q/z/f"}
""".strip().splitlines()
# Claims allocate far more: of theirs, one in STEP is refused.
STEP = 211
CLAIMS = r"""
{"do":"put","path":"/etc/httpd/conf/httpd.conf","text":"DocumentRoot /srv\nRewriteEngine On\nRewriteRule ^/o$ /x/k [L]\n<Location /x>\nRequire ip 10.0.0.0/8\n</Location>\n"}
{"do":"put","path":"/srv/x/k","text":""}
{"do":"decide","claim":{"kind":"stops"},"scope":{"path":{"pattern":"^/o$"}}}
{"do":"decide","claim":{"kind":"guarded","target":{"pattern":"^/srv/x"},"file":"/etc/httpd/conf/httpd.conf","line":5},"scope":{"path":{"pattern":"^/(o|y)$"}}}
{"do":"decide","claim":{"kind":"shadowed","file":"/etc/httpd/conf/httpd.conf","line":3},"scope":{"path":{"pattern":"^/x/k$"}}}
{"do":"verify","claim":{"kind":"stops"},"scope":{"path":{"pattern":"^/a$"}},"cells":[{"at":"pass","rank":0,"slots":{"path":{"pattern":"^/a$"}}},{"at":"server","rank":0,"slots":{"text":{"pattern":"^/a$"}}}]}
{"do":"ask","target":"/o"}
{"do":"put","path":"/etc/httpd/conf/httpd.conf","text":"DocumentRoot /srv\nRedirect /a http://localhost/b\nRedirect /c http://localhost/c\n"}
{"do":"decide","claim":{"kind":"ends","hosts":[{"host":"localhost","port":80,"scheme":"http"}]},"scope":{"path":{"pattern":"^/[ab]$"}}}
{"do":"decide","claim":{"kind":"ends","hosts":[{"host":"localhost","port":80,"scheme":"http"}]},"scope":{"path":{"pattern":"^/c$"}}}
""".strip().splitlines()


def with_stats(commands):
    """What is counted shows behind each line."""
    return [line for command in commands for line in (command, '{"do":"stats"}')] + ['{"do":"end"}']


def answers(lines, refused=0, also=0):
    """The status and the replies of a run in which these allocations are refused."""
    env = {"REFUSE_AT": str(refused), "REFUSE_ALSO": str(also), "LD_PRELOAD": LIBRARY} if refused else {}
    text = "".join(line + "\n" for line in lines)
    done = subprocess.run([PROGRAM], input=text.encode(), capture_output=True, env={**os.environ, **env})
    return done.returncode, done.stdout.decode().splitlines()


def fault_of(script, status, replies):
    """What is wrong with a run of a script, and how many lines found no memory."""
    if status == 5:
        return (None if not replies else "status 5, and something was written"), "status 5"
    if status != 0 or len(replies) != len(script):
        return f"status {status}, {len(replies)} replies", "broken"
    kept = [line for line, reply in zip(script, replies) if reply != NO_MEMORY]
    others = [reply for reply in replies if reply != NO_MEMORY]
    lost = len(script) - len(kept)
    same = answers(kept)[1] == others
    return (None if same else "a line without memory changed something"), f"{lost} lines lost"


def tried(script, at, also=0):
    """What came of a run in which these are refused; ends where something is wrong."""
    fault, kind = fault_of(script, *answers(script, at, also))
    if fault:
        sys.exit(f"FAIL  allocations {at} and {also}: {fault}" if also else f"FAIL  allocation {at}: {fault}")
    return kind


def refused_in_turn(name, commands, step):
    """Refuses one in `step` of the allocations of a script, each in a run of its own, and tells what came of it."""
    script = with_stats(commands)
    counts, pairs, at, quiet = collections.Counter(), 0, 1, 0
    while quiet < QUIET:
        kind = tried(script, at)
        counts[kind] += 1
        quiet = quiet + 1 if kind == "0 lines lost" else 0
        for behind in range(1, PAIRS + 1):
            tried(script, at, at + behind)
            pairs += 1
        at += step
    for kind, count in sorted(counts.items()):
        print(f"{count:>5} runs: {kind}")
    print(f"PASS  {name}: {counts.total()} allocations refused, one a run" + (f"; {pairs} pairs" if PAIRS else ""), flush=True)


refused_in_turn("claims", CLAIMS, STEP)
refused_in_turn("the other commands", SCRIPT, 1)
PYTHON
