"""Tests of tools/audit and of the modules that it stands on.

Where the environment variable HC names hc's program, small worlds are audited with it, too.
"""

import ast
import importlib.machinery
import importlib.util
import json
import os
import pathlib
import re
import subprocess
import sys
import tempfile
import time
import unittest

sys.dont_write_bytecode = True

TOOLS = pathlib.Path(__file__).resolve().parent.parent
AUDIT = str(TOOLS / "audit")
sys.path[:0] = [str(TOOLS), str(TOOLS / "tests")]

from test_show import HOSTILE, MAIN, REQUEST, Case, lines_of, put, refusal  # noqa: E402

from hc_audit_config import Reader, World, logical_lines  # noqa: E402
from hc_audit_questions import Planner, Roots, Servers, below, escaped, scopes_of, shares, target_of  # noqa: E402
from hc_audit_session import Ended, Late, Session, WorldLines  # noqa: E402
from hc_report_files import Command  # noqa: E402

HC = os.environ.get("HC")


def listed(path, kind="file"):
    return {"do": "list", "path": path, "kind": kind}


def world_of(commands):
    """A world in which these commands were done."""
    world = World()
    for number, command in enumerate(commands, 1):
        world.follow(Command(number, command))
    return world


def found_in(text, *others):
    """What a main file, and other files, name."""
    return Reader(world_of([put(MAIN, text), *others])).read()


def questions_of(commands, most=1000, only=()):
    """The plan of the questions on a world."""
    world = world_of(commands)
    return Planner(world, Reader(world).read(), only).plan(most, 1)


# ---- the configuration

HOSTS = """\
Listen 80
Listen 8443 https
DocumentRoot /srv/main/
ServerName main.org:80
<VirtualHost 10.0.0.1:80 *:8080>
  ServerName "a.org"
  ServerAlias www.a.org *.a.org A.ORG
  DocumentRoot /srv/a
</VirtualHost>
<VirtualHost _default_:443>
  serverNAME b.org
</VirtualHost>
<VirtualHost *:8081>
  SSLEngine On
</VirtualHost>
"""


class Hosts(Case):
    """Servers, and which of them answers."""

    def test_reading(self):
        found = found_in(HOSTS)
        self.assertEqual(found.main.names(), [b"main.org"])
        self.assertEqual(found.main.root, b"/srv/main")
        self.assertEqual(found.ports, [(b"*", 80, False), (b"*", 8443, True)])
        told = [(host.place[1], host.addresses, host.names(), host.wild_names()) for host in found.hosts]
        self.assertEqual(told, [
            (5, [(b"10.0.0.1", 80), (b"*", 8080)], [b"a.org", b"www.a.org"], [b"*.a.org"]),
            (10, [(b"*", 443)], [b"b.org"], []),
            (13, [(b"*", 8081)], [], []),
        ])
        self.assertEqual([host.is_secure for host in found.hosts], [False, True, True])
        self.assertEqual([host.root for host in found.hosts], [b"/srv/a", None, None])

    def test_scopes(self):
        found = found_in(HOSTS)
        self.assertEqual([f"{scope.url()} {scope.server.decode()}" for scope in scopes_of(found)], [
            "http://main.org 192.0.2.1", "https://main.org:8443 192.0.2.1",
            "http://a.org 10.0.0.1", "http://www.a.org 10.0.0.1",
            "http://a.org:8080 192.0.2.1", "http://www.a.org:8080 192.0.2.1",
            "https://b.org 192.0.2.1", "https://localhost:8081 192.0.2.1",
        ])

    def test_names_that_are_given(self):
        found = found_in(HOSTS)
        urls = [scope.url() for scope in scopes_of(found, [b"x.a.org"])]
        self.assertEqual(urls, ["http://x.a.org", "http://x.a.org:8080"])
        self.assertEqual(len(scopes_of(found, [b"unknown.org"])), 6)

    def test_who_answers(self):
        found = found_in("<VirtualHost *:80>\nServerName a\n</VirtualHost>\n<VirtualHost *:80>\nServerName A\n"
                         "ServerAlias [x] w?\n</VirtualHost>\n<VirtualHost 10.0.0.1:80>\n</VirtualHost>\n")
        servers = Servers(found)
        for server, port, name, host in (
            (b"192.0.2.1", 80, b"a", 0), (b"192.0.2.1", 80, b"WX", 1), (b"192.0.2.1", 80, b"x", 0),
            (b"192.0.2.1", 80, b"other", 0), (b"10.0.0.1", 80, b"a", 2), (b"10.0.0.1", 81, b"a", None),
        ):
            with self.subTest(name):
                wanted = found.main if host is None else found.hosts[host]
                self.assertIs(servers.answering(server, port, name), wanted)
        # The second host has no name of its own that it is found by.
        self.assertEqual([found.hosts.index(scope.host) for scope in scopes_of(found)], [0, 2])

    def test_included_files_and_conditions(self):
        found = found_in(
            "ServerRoot /etc/httpd\nDefine R /srv/x\nLoadModule a_module a.so\n<IfModule !a_module>\nServerName no\n"
            "</IfModule>\n<IfModule mod_ssl.c>\n<VirtualHost *:443>\nInclude in/*.conf\n</VirtualHost>\n</IfModule>\n"
            "<IfDefine !R>\n<VirtualHost *:81>\n</VirtualHost>\n</IfDefine>\nInclude conf/httpd.conf\nInclude /none\n",
            put("/etc/httpd/in/b.conf", "DocumentRoot ${R}\n"),
            put("/etc/httpd/in/a.conf", "ServerName \\\n in.org\nDocumentRoot /srv/first\n"),
            put("/etc/httpd/in/c.txt", "ServerName c.org\n"),
        )
        self.assertIsNone(found.main.name)
        self.assertEqual([(host.name, host.root) for host in found.hosts], [(b"in.org", b"/srv/x")])
        self.assertEqual(found.files[:3], [MAIN.encode(), b"/etc/httpd/in/a.conf", b"/etc/httpd/in/b.conf"])

    def test_logical_lines(self):
        text = b"# a \\\nb\n\n c\\\n d \r\ne\\"
        self.assertEqual(list(logical_lines(text)), [(4, b"c d"), (6, b"e\\")])

    def test_odd_texts(self):
        odd = "<VirtualHost\n<VirtualHost >\n</x>\n<>\n>\n<VirtualHost a b:c *:99999>\nServerName\nRequire\nAlias /\n" \
              "RewriteRule\nListen\nInclude\nDefine\n<IfDefine>\n</IfDefine\nLoadModule\nDocumentRoot\n\"\n'x\n" \
              "Include [\nInclude *\nInclude a?\\\\\n" + HOSTILE.encode("utf-8", "replace").decode()
        self.assertIsNotNone(found_in(odd))
        self.assertIsNotNone(questions_of([put(MAIN, odd), put("/.htaccess", odd), listed("/.htx")]))


PORTS = """\
Listen 80
<IfModule ssl_module>
Listen 443
</IfModule>
<IfModule mod_gnutls.c>
Listen 443
</IfModule>
"""
UNLOADED = "its port 443 isn't asked for, since nothing loads `ssl_module` before it"


class Ports(Case):
    """Ports that are opened for a module alone."""

    def asked(self, text, *others, only=()):
        """The URLs that are asked for, and the lines of the main file of which nothing is, with the reasons."""
        plan = questions_of([put(MAIN, text), *others], only=only)
        return [scope.url() for scope in plan.scopes], [(place[1], reason) for place, reason in plan.skipped]

    def test_each(self):
        both, plain_one = ["http://localhost", "https://localhost"], ["http://localhost"]
        for front, urls, line in (
            ("", both, None),
            ("LoadModule dir_module m.so\n", plain_one, 4),
            ("LoadModule ssl_module m.so\n", both, None),
            ("loadmodule gnutls_module m.so\n", both, None),
            ("LoadModule dir_module m.so\n<IfModule !mod_ssl.c>\nLoadModule ssl_module m.so\n</IfModule>\n", both,
             None),
            ("<IfModule !mod_so.c>\nLoadModule ssl_module m.so\n</IfModule>\n", plain_one, 6),
            ("<IfDefine S>\nLoadModule ssl_module m.so\n</IfDefine>\n", plain_one, 6),
        ):
            with self.subTest(front):
                self.assertEqual(self.asked(front + PORTS), (urls, [(line, UNLOADED)] if line else []))
        self.assertEqual(self.asked(PORTS + "LoadModule ssl_module m.so\n"), (plain_one, [(3, UNLOADED)]))

    def test_names_of_modules(self):
        for loaded, word, is_open in (
            ("ssl", "mod_ssl.c", True), ("ssl", "ssl_module", True), ("ssl", "!mod_ssl.c", False),
            ("ssl", "!ssl_module", False), ("dir", "mod_ssl.c", False), ("dir", "!mod_ssl.c", True),
            ("dir", "core.c", True), ("dir", "core_module", True), ("dir", "mod_so.c", True),
            ("dir", "so_module", True), ("dir", "!core.c", False), ("dir", "xmod_dir.c", False),
            ("php5", "!mod_php5.c", False), ("dir", "!mod_php5.c", True),
            ("mpm_event", "event.c", False), ("mpm_event", "!event.c", True), ("dir", "", False),
        ):
            with self.subTest(word, loaded=loaded):
                text = f"LoadModule {loaded}_module m.so\nListen 80\n<IfModule {word}>\nListen 81\n</IfModule>\n"
                self.assertEqual("http://localhost:81" in self.asked(text)[0], is_open)
        text = "LoadModule php5_module m.so\nListen 80\n<IfModule !mod_php5.c>\nListen 81\n</IfModule>\n"
        told = "its port 81 isn't asked for, since `php5_module` is loaded"
        self.assertEqual(self.asked(text), (["http://localhost"], [(4, told)]))

    def test_sections_within_and_included_files(self):
        text = ("LoadModule dir_module m.so\nListen 80\n<IfModule mod_ssl.c>\n<IfModule mod_dir.c>\nInclude /p\n"
                "</IfModule>\n</IfModule>\n<IfModule mod_dir.c>\nListen 81\n</IfModule>\n")
        urls, told = self.asked(text, put("/p", "Listen 443\n"))
        self.assertEqual((urls, told), (["http://localhost", "http://localhost:81"], [(1, UNLOADED)]))

    def test_hosts(self):
        front = "LoadModule dir_module m.so\n"
        host = "<IfModule mod_ssl.c>\n%s<VirtualHost *:443>\nServerName s\n</VirtualHost>\n</IfModule>\nListen 80\n"
        self.assertEqual(self.asked(host % "Listen 443\n"), (["http://localhost", "https://s"], []))
        self.assertEqual(self.asked(front + host % "Listen 443\n"),
                         (["http://localhost"], [(3, UNLOADED), (4, UNLOADED)]))
        self.assertEqual(self.asked(front + host % "Listen 443\n", only=[b"s"]),
                         (["http://s"], [(3, UNLOADED), (4, UNLOADED)]))
        # Where the port is open without the module, or a host without it has the port, nothing is left out.
        self.assertEqual(self.asked(front + host % "" + "Listen 443\n"), (["http://localhost", "https://s"], []))
        self.assertEqual(self.asked(front + PORTS + "<VirtualHost *:443>\nServerName v\n</VirtualHost>\n"),
                         (["http://localhost", "https://v"], []))


GUARDS = """\
DocumentRoot /srv
<Directory "/srv/a/">
  <RequireAll>
  Require ip 10
  </RequireAll>
  <Files x>
    Require ip 11
  </Files>
  Require ALL Granted
</Directory>
<Directory "/srv/*">
  Require all denied
</Directory>
<Directory ~ "^/srv">
  Require all denied
</Directory>
<Location /srv>
  Require local
</Location>
<VirtualHost *:80>
  <Directory /srv/b>
    Require method GET
  </Directory>
  RewriteRule a b
  <IfDefine NO>
    Require ip 12
  </IfDefine>
</VirtualHost>
"""


class Guards(Case):
    """`Require` lines and rules."""

    def test_reading(self):
        text = "Require ip 1\n<If true>\nRequire ip 2\n</If>\nRewriteRule x y\n"
        found = found_in(GUARDS, put("/srv/c/.htaccess", text))
        told = [(guard.place[1], guard.folder, guard.is_open, bool(guard.reason)) for guard in found.guards]
        self.assertEqual(told, [
            (4, b"/srv/a", False, False), (7, None, False, True), (9, b"/srv/a", True, False), (12, None, False, True),
            (15, None, False, True), (18, None, False, True), (22, b"/srv/b", False, False),
            (1, b"/srv/c", False, False), (3, None, False, True),
        ])
        self.assertEqual([guard.host for guard in found.guards if guard.place[1] == 22], found.hosts)
        rules = [(rule.place, rule.host, rule.folder, rule.is_of_server) for rule in found.rules]
        self.assertEqual(rules, [((MAIN.encode(), 24), found.hosts[0], None, True),
                                 ((b"/srv/c/.htaccess", 5), None, b"/srv/c", False)])

    def test_questions(self):
        plan = questions_of([put(MAIN, GUARDS)])
        guards = [q.fields["claim"] for q in plan.questions if q.kind == "guard"]
        self.assertEqual([(claim["line"], claim["target"]) for claim in guards],
                         [(4, below(b"/srv/a")), (22, below(b"/srv/b"))])
        self.assertEqual([(place[1], reason.startswith(("a section", "its `Directory`")))
                          for place, reason in plan.skipped], [(7, True), (12, True), (15, True), (18, True)])

    def test_folders_with_lines_of_their_own(self):
        text = "DocumentRoot /s\n" + "".join(
            f"<Directory {folder}>\nRequire all {word}\n</Directory>\n"
            for folder, word in (("/", "denied"), ("/s", "granted"), ("/s/a", "denied"), ("/sb", "denied"))
        )
        claims = [q.fields["claim"] for q in questions_of([put(MAIN, text)]).questions if q.kind == "guard"]
        self.assertEqual([claim["target"] for claim in claims],
                         [target_of(b"/", [b"/s", b"/sb"]), below(b"/s/a"), below(b"/sb")])

    def test_lines_of_another_host_are_no_holes(self):
        host = "<VirtualHost *:%d>\nServerName h%d\n%s</VirtualHost>\n"
        text = "DocumentRoot /s\n<Directory />\nRequire all denied\n</Directory>\n" + host % (
            81, 1, "<Directory /s>\nRequire all granted\n</Directory>\n") + host % (82, 2, "")
        claims = [(q.fields["scope"]["port"], q.fields["claim"]["target"])
                  for q in questions_of([put(MAIN, text)]).questions if q.kind == "guard"]
        whole = below(b"/")
        self.assertEqual(claims, [(80, whole), (81, target_of(b"/", [b"/s"])), (82, whole)])


class Patterns(Case):
    """Escapes in patterns, as docs/RULES.md (Patterns and globs) reads them; Python reads these alike."""

    def test_each_byte(self):
        codes = [code for code in [*range(0x20, 0x7F), 0xE9, 0x20AC, 0x1F600] if code != ord("/")]
        for path in ["/" + chr(code) for code in codes] + ["/a.b/[c]$^(x)*+?{1}|\\"]:
            with self.subTest(path):
                pattern = below(path.encode())["pattern"]
                data = pattern.encode()
                for text, is_in in ((path, True), (path + "/", True), (path + "/x", True), (path + "x", False),
                                    ("/yy" + path, False), (path[:-1], False), (path.replace("/", "/y", 1), False)):
                    self.assertEqual(bool(re.search(data, text.encode())), is_in, (pattern, text))
                self.assertNotRegex(escaped(path.encode()), r"\\[A-Za-z0-9]")

    def test_root(self):
        self.assertEqual(below(b"/"), {"pattern": "^/"})


class Questions(Case):
    """Which questions there are, and in which order."""

    WORLD = [
        put(MAIN, "DocumentRoot /srv\nAlias /i/ /opt/i/\nAlias /j /opt/i\nRewriteRule a b\n<Directory /srv>\n"
                  "Require ip 10\n</Directory>\n<VirtualHost *:80>\nServerName v\nDocumentRoot /srv/v\n</VirtualHost>\n"
                  "Listen 81\n"),
        put("/srv/v/.htaccess", "RewriteRule c d\n"), listed("/srv/v/a b"), listed("/srv/v/z"),
        put("/opt/i/.htaccess", ""), listed("/opt/i/.htx"), put("/other/.htaccess", ""), listed("/other/.hty"),
    ]

    def test_order_and_targets(self):
        plan = questions_of(self.WORLD)
        self.assertEqual([q.kind for q in plan.questions], sorted(
            (q.kind for q in plan.questions), key=["hidden", "guard", "stops", "chain", "htaccess", "rule"].index))
        asks = [(q.kind, q.fields["port"], q.fields["target"]) for q in plan.questions if q.fields["do"] == "ask"]
        self.assertEqual(asks, [
            ("hidden", 81, "/i/.htaccess"), ("hidden", 81, "/j/.htaccess"),
            ("hidden", 80, "/i/.htaccess"), ("hidden", 80, "/j/.htaccess"),
            ("hidden", 81, "/i/.htx"), ("hidden", 81, "/j/.htx"), ("hidden", 80, "/i/.htx"), ("hidden", 80, "/j/.htx"),
            ("hidden", 80, "/.htaccess"), ("hidden", 81, "/v/.htaccess"),
            ("htaccess", 81, "/i/"), ("htaccess", 80, "/z"),
        ])
        rules = [(q.fields["claim"]["line"], q.fields["scope"]["port"]) for q in plan.questions if q.kind == "rule"]
        self.assertEqual(rules, [(4, 81), (1, 81), (1, 80)])
        self.assertEqual([place for place, _ in plan.skipped], [(b"/other/.htaccess", 0)])
        self.assertEqual([q.line for q in questions_of(self.WORLD).questions], [q.line for q in plan.questions])

    def test_a_htaccess_above_a_root(self):
        plan = questions_of([put(MAIN, "DocumentRoot /srv/www\n"), put("/srv/.htaccess", ""), listed("/srv/a"),
                             listed("/srv/www/f")])
        self.assertEqual([q.fields["target"] for q in plan.questions if q.kind == "htaccess"], ["/f"])

    def test_chains(self):
        hosts = "".join(f"<VirtualHost *:80>\nServerName h{at}\n</VirtualHost>\n" for at in range(18))
        for line, is_asked in (
            ("Redirect /a /b", True), ("redirectMATCH a /b", True), ("RewriteRule ^/a https://b/ [L]", True),
            ("RewriteRule a b [L,R=301]", True), ("RewriteRule a b [redirect]", True),
            ("RewriteRule a b [NE,r,L]", True),
            ("RewriteRule a b [PT]", False), ("RewriteRule a b", False), ("RewriteRule r=x /r [E=R:1,QSA]", False),
        ):
            with self.subTest(line):
                asked = [q for q in questions_of([put(MAIN, f"{hosts}{line}\n")]).questions if q.kind == "chain"]
                self.assertEqual(len(asked), 18 if is_asked else 0)
                for question in asked:
                    hosts_of = question.fields["hosts"]
                    origins = [(origin["scheme"], origin["host"], origin["port"]) for origin in hosts_of]
                    self.assertEqual(origins[0], ("http", question.fields["host"], 80))
                    self.assertEqual((len(origins), len(set(origins)), question.fields["target"]), (16, 16, "/"))

    def test_their_number(self):
        many = len(questions_of(self.WORLD).questions)
        for most in (0, 1, 4, 7, many - 1, many):
            plan = questions_of(self.WORLD, most)
            self.assertEqual((len(plan.questions), sum(plan.left_out.values())), (most, many - most))
        self.assertEqual(shares({"a": 100, "b": 2, "c": 3}, 20), {"b": 2, "c": 3, "a": 15})

    def test_roots(self):
        found = found_in("DocumentRoot /srv\n<VirtualHost *:80>\nDocumentRoot /srv/v\n</VirtualHost>\nListen 81\n")
        roots = Roots(found, scopes_of(found))
        self.assertEqual([(url, len(scopes)) for url, scopes in roots.urls(b"/srv/v/x")], [(b"/x", 1), (b"/v/x", 1)])
        self.assertEqual(list(roots.urls(b"/srvx")), [])
        self.assertEqual(len(roots.near(b"/srv/v/w")), 2)
        self.assertEqual(len(roots.near(b"/")), 2)
        self.assertEqual(len(roots.near(b"/srv/w")), 1)


# ---- a program that answers from a table

FAKE = """\
#!{python}
import json, sys, time
table = json.loads({table!r})
for line in open(0, errors="replace", newline="\\n"):
    for word, reply in table:
        if word in line:
            break
    else:
        reply = '{{"done":"put"}}'
    if reply == "hang":
        time.sleep(1000)
    if reply.startswith("exit"):
        sys.exit(int(reply[4:] or 0))
    sys.stdout.write(reply + "\\n")
    sys.stdout.flush()
"""

CHECKED = ['"check"', '{"config":{"hosts":0}}']
PROVED = ['"decide"', '{"proved":true}']
SERVED = ['"ask"', '{"outcome":{"not_found":true}}']
CALM = [put(MAIN, "DocumentRoot /srv\nRewriteRule a b\n<Directory /srv>\nRequire ip 10\n</Directory>\n")]


class Folder(Case):
    """A folder for each test, with programs and worlds."""

    def setUp(self):
        made = tempfile.TemporaryDirectory(prefix="hc-audit-test-")
        self.addCleanup(made.cleanup)
        self.folder = pathlib.Path(made.name)

    def fake(self, *table):
        """A program that gives the reply of the first word of a table that stands in a line."""
        path = self.folder / "fake"
        path.write_text(FAKE.format(python=sys.executable, table=json.dumps(table)), "utf-8")
        path.chmod(0o700)
        return str(path)

    def world(self, commands):
        path = self.folder / "world.jsonl"
        path.write_bytes(lines_of(commands))
        return str(path)

    def audit(self, program, commands, *more, given=b""):
        """The status, the output and the errors of an audit."""
        world = commands if isinstance(commands, str) else self.world(commands)
        ran = subprocess.run([sys.executable, AUDIT, "--hc", program, *more, world], input=given, capture_output=True,
                             timeout=60, env={**os.environ, "PYTHONIOENCODING": "utf-8"})
        self.assertNotIn(b"Traceback", ran.stderr)
        return ran.returncode, ran.stdout.decode(), ran.stderr.decode()


class Sessions(Folder):
    """The pipes."""

    def session(self, *table, seconds=20):
        session = Session([self.fake(*table)], seconds)
        self.addCleanup(session.end)
        return session

    def test_a_world_and_questions(self):
        session, lines = self.session(["q", "answer"]), WorldLines(self.world([b"a\n", b"b"]))
        self.assertEqual(list(session.begin(lines)), [(b"a\n", b'{"done":"put"}\n'), (b"b\n", b'{"done":"put"}\n')])
        self.assertEqual([session.ask(b"q\n") for _ in range(3)], [b"answer\n"] * 3)

    def test_a_late_answer(self):
        session = self.session(["slow", "hang"], ["q", "answer"], seconds=3)
        list(session.begin([b"a\n"]))
        before = time.monotonic()
        with self.assertRaises(Late):
            session.ask(b"slow\n")
        self.assertLess(time.monotonic() - before, 15)
        self.assertFalse(session.is_open)
        list(session.begin([b"a\n"]))
        self.assertEqual(session.ask(b"q\n"), b"answer\n")

    def test_an_end(self):
        session = self.session(["bad", "exit3"])
        list(session.begin([b"a\n"]))
        with self.assertRaisesRegex(Ended, "status 3"):
            session.ask(b"bad\n")

    def test_more_than_a_pipe_holds(self):
        session = self.session(["big", "x" * 300000])
        lines = [b"y" * 1000 + b"\n"] * 2000 + [b"big\n"]
        self.assertEqual(sum(len(reply) for _, reply in session.begin(lines)), 2000 * 15 + 300001)


class Faults(Folder):
    """Programs that don't answer, or answer something else."""

    def test_calm(self):
        status, out, errors = self.audit(self.fake(CHECKED, ["shadowed", '{"undecided":{"branch":[]}}'], PROVED), CALM)
        self.assertEqual((status, errors), (1, ""))
        self.assertIn("[5] Undecided: It isn't known whether the RewriteRule of /etc/httpd/conf/httpd.conf:2", out)
        self.assertIn("4 questions asked of a world of 1 line.\nFindings: 1 undecided.\n", out)
        calm = [put(MAIN, "DocumentRoot /srv\n")]
        status, out, _ = self.audit(self.fake(CHECKED, PROVED), calm)
        self.assertEqual(status, 0)
        self.assert_in_each(["Findings\n\nThere is none.\n", "Proved: each request to http://localhost ends"], out)

    def test_late_answers(self):
        program = self.fake(CHECKED, ["stops", "hang"], PROVED)
        status, out, _ = self.audit(program, CALM, "--seconds", "3")
        self.assertEqual(status, 1)
        self.assert_in_each(["[4] Not in time: Not answered in 3 seconds: the claim that no request", "[5] Dead rule: ",
                             "[3] Proved: the Require of", "--seconds"], out)

    def test_many_late_answers_of_one_name(self):
        rules = put(MAIN, "DocumentRoot /srv\n" + "RewriteRule a b\n" * 6)
        status, out, _ = self.audit(self.fake(CHECKED, ["shadowed", "hang"], PROVED), [rules], "--seconds", "3")
        self.assertEqual((status, out.count("Not in time: ")), (1, 3))
        self.assertIn("3 questions on rules that never apply left out, since 3 for the same name weren't", out)

    def test_a_program_that_ends(self):
        status, out, _ = self.audit(self.fake(CHECKED, ["stops", "exit9"], PROVED), CALM)
        self.assertEqual(status, 1)
        self.assertIn("[4] No reply: Not answered, since the program ended with the status 9: the claim", out)
        self.assertIn("[5] Dead rule: ", out)

    def test_a_program_that_always_ends(self):
        rules = put(MAIN, "DocumentRoot /srv\n" + "RewriteRule a b\n" * 30)
        status, out, _ = self.audit(self.fake(CHECKED, ["decide", "exit0"]), [rules])
        self.assertEqual((status, out.count("No reply: ")), (1, 20))
        self.assertIn("11 questions on rules that never apply left out, since the program ended 20 times", out)

    def test_a_program_that_ends_in_the_world(self):
        for program in (self.fake(["b", "exit7"]), "/nonexistent/hc", str(self.folder)):
            status, out, errors = self.audit(program, [b"a\n", b"b\n", b"c\n"])
            self.assertEqual((status, out), (2, ""))
            self.assertRegex(errors, r"^audit: .+\n$")

    def test_garbage(self):
        odd = ["", "x", "{}", "[1]", '{"proved":false}', '{"outcome":{}}', '{"refuted":{}}', '{"refused":{}}', "null",
               '{"refused":5}', '{"proved":true,"x":1}', "\x1b[31m", '{"events":1,"outcome":{},"reads":[],"trail":[5]}',
               '{"refuted":{"outcome":{"x":1},"request":{}}}', '{"done":"end"}', '{"no_memory":true}', "9" * 5000,
               '{"events":1,"outcome":{"not_found":true},"reads":[[]],"trail":[[],[1],["walk",5],["walk"],5]}']
        commands = [*CALM, put("/srv/.htaccess", ""), listed("/srv/f")]
        for reply in odd:
            with self.subTest(reply=reply):
                program = self.fake(CHECKED, ['"ask"', reply], ['"decide"', reply], PROVED, SERVED)
                status, out, _ = self.audit(program, commands)
                self.assertEqual(status, 1)
                self.assert_safe(out)
        self.assertEqual(self.audit(self.fake(['"check"', "x"]), CALM)[0], 1)
        self.assertEqual(self.audit(self.fake(["", "x"]), CALM)[0], 1)

    def test_a_hostile_world(self):
        text = HOSTILE.encode("utf-8", "replace").decode()
        name = text.replace("/", "")
        odd = [b"\n", b"not json\n", b"[]\n", b'{"do":5}\n', b'{"do":"new"}\n', b'{"do":"put","path":5}\n', b"\xff\n",
               put(MAIN, f"ServerName \"{text}\"\nServerAlias {text}\nDocumentRoot \"/srv/{name}\"\n"
                         f"RewriteRule {text}\n<Directory \"/srv/{name}\">\nRequire {text}\n</Directory>\n"
                         f"<Location {text}>\nRequire x\n"),
               put(f"/srv/{name}/.htaccess", f"Require {text}\nRewriteRule {text}\n"), listed(f"/srv/{name}/.ht{name}"),
               listed(f"/srv/{name}/{name}")]
        undecided = '{"undecided":{"branch":[]}}'
        for more in ((), ("--html",)):
            status, out, _ = self.audit(self.fake(CHECKED, ["decide", undecided], SERVED), odd, *more)
            self.assertEqual(status, 1)
            self.assert_page(out) if more else self.assert_safe(out)

    def test_refused_lines_of_a_world(self):
        refused = json.dumps({"refused": refusal(45, "BadJson")})
        status, out, _ = self.audit(self.fake(CHECKED, ["bad", refused], PROVED), [*CALM, *[b"bad\n"] * 30])
        self.assertEqual((status, out.count("] Refused: BadJson (45)")), (1, 20))
        self.assertIn("10 more lines of the world are refused.", out)

    def test_a_world_with_an_end(self):
        ended = ['"end"', '{"done":"end"}']
        commands = [put(MAIN, "DocumentRoot /srv\n"), {"do": "end"}, put(MAIN, "DocumentRoot /other\n")]
        script = self.folder / "out.jsonl"
        status, out, _ = self.audit(self.fake(ended, CHECKED, PROVED), commands, "--script", str(script))
        self.assertEqual(status, 0)
        self.assertIn("document root /srv\n", out)
        does = [json.loads(line)["do"] for line in script.read_text().splitlines()]
        self.assertEqual(does, ["put", "check", "decide"])


class Leaving(Folder):
    """What is left behind."""

    def test_a_termination_ends_the_program(self):
        pid = self.folder / "pid"
        program = self.folder / "slow"
        program.write_text(f"#!/bin/sh\necho $$ > {pid}\nexec sleep 100\n", "utf-8")
        program.chmod(0o700)
        with subprocess.Popen([sys.executable, AUDIT, "--hc", str(program), self.world(CALM)],
                              stdout=subprocess.DEVNULL) as ran:
            deadline = time.monotonic() + 30
            while not (pid.exists() and pid.read_text().endswith("\n")) and time.monotonic() < deadline:
                time.sleep(0.05)
            ran.terminate()
            self.assertEqual(ran.wait(30), 143)
        self.assertTrue(self.is_gone(int(pid.read_text())))

    def is_gone(self, pid):
        """No such process is there, once its status has been taken."""
        deadline = time.monotonic() + 30
        while time.monotonic() < deadline:
            try:
                os.kill(pid, 0)
            except ProcessLookupError:
                return True
            time.sleep(0.05)
        return False

    def test_a_world_from_a_pipe(self):
        shell = f'{sys.executable} {AUDIT} --hc {self.fake(CHECKED, PROVED)} <(cat {self.world(CALM)})'
        ran = subprocess.run(["bash", "-c", shell], capture_output=True, timeout=60)
        self.assertEqual((ran.returncode, ran.stderr), (1, b""))
        self.assertIn(b"asked of a world of 1 line.", ran.stdout)


class Findings(Folder):
    """What answers come to, with a program that answers from a table."""

    def test_a_refuted_guard_with_its_steps(self):
        request = {**REQUEST, "target": "/open/"}
        refuted = json.dumps({"refuted": {"outcome": {"directory": "/srv/"}, "request": request}})
        trail = json.dumps({"events": 1, "outcome": {"directory": "/srv/"}, "reads": [], "trail": [["host", "", 0]]})
        program = self.fake(CHECKED, ["guarded", refuted], ['"ask"', trail], PROVED)
        status, out, _ = self.audit(program, CALM)
        self.assertEqual(status, 1)
        self.assert_in_each(["[3] Refuted: GET http://h/open/ breaks the claim", "httpd.conf:4  Require ip 10\n",
                             "curl -i", "1. the main server answers", "To do: Look in the steps"], out)
        self.assertNotIn("To be told why", out)
        self.assertLess(out.index("Refuted: "), out.index("Dead rule: "))

    def test_a_request_outside_is_no_leak(self):
        outside = json.dumps({"refuted": {"outcome": {"outside": "scheme"}, "request": REQUEST}})
        status, out, _ = self.audit(self.fake(CHECKED, ["decide", outside], SERVED), CALM)
        self.assertEqual(status, 1)
        self.assertIn("Findings: 3 outside.\n", out)
        self.assertNotIn("Refuted:", out)

    def test_a_file_behind_a_request_outside(self):
        outside = json.dumps({"refuted": {"outcome": {"outside": "scheme"}, "request": REQUEST}})
        leak = json.dumps({"refuted": {"outcome": {"file": {"info": "", "path": "/srv/f"}}, "request": REQUEST}})
        program = self.fake(CHECKED, ['"path": {"pattern": "/f$"}', leak], ["guarded", outside], PROVED, SERVED)
        status, out, _ = self.audit(program, [*CALM, listed("/srv/f")])
        self.assertEqual(status, 1)
        self.assert_in_each(["[4] Refuted: ", "paths matching /f$", "Over all paths a request that ends outside"], out)

    def test_chains(self):
        commands = [put(MAIN, "DocumentRoot /srv\nRedirect /a /b\nListen 80\nListen 81\n")]
        sent = {"redirect": {"location": "http://localhost/", "status": 302}}
        ended = json.dumps({"followed": {"outcome": {"directory": "/srv/"}, "steps": 1, "stop": "ended"}})
        too_many = json.dumps({"followed": {"outcome": sent, "steps": 20, "stop": "too many"}})
        program = self.fake(CHECKED, PROVED, ['"port": 81, "host"', too_many], ["follow", ended])
        status, out, _ = self.audit(program, commands)
        self.assertEqual(status, 1, out)
        self.assert_in_each(["Broken chain: GET http://localhost:81/ is redirected 20 times among the named servers",
                             "GET http://localhost/ is redirected once among the named servers, and then comes to the",
                             "Findings: 1 with redirects that don't end.\n"], out)
        self.assertLess(out.index("Broken chain"), out.index("In order"))

    def test_a_rule_that_is_in_use_for_one_name(self):
        commands = [put(MAIN, "DocumentRoot /srv\nListen 80\nListen 81\nRewriteRule a b\n")]
        used = json.dumps({"refuted": {"outcome": {"status": 403}, "request": REQUEST}})
        program = self.fake(CHECKED, ["stops", '{"proved":true}'], ['"port": 81', used], PROVED, SERVED)
        status, out, _ = self.audit(program, commands)
        self.assertEqual(status, 0, out)
        self.assertIn("1 RewriteRule in use", out)

    def test_a_port_that_is_left_out(self):
        text = "LoadModule dir_module m.so\nDocumentRoot /srv\n" + PORTS
        for more in ((), ("--html",)):
            status, out, _ = self.audit(self.fake(CHECKED, PROVED), [put(MAIN, text)], *more)
            self.assertEqual(status, 0)
            out = self.assert_page(out).text if more else out
            told = [":5: " + UNLOADED.replace("`", ""), "of 1 line nothing is said."]
            self.assert_in_each(["each request to http://localhost ends", *told], out)
            self.assertNotIn("https://", out)

    def test_a_place_that_is_not_there(self):
        gone = json.dumps({"refused": refusal(48, "NoSuchPlace")})
        status, out, _ = self.audit(self.fake(CHECKED, ["shadowed", gone], ["guarded", gone], PROVED), CALM)
        self.assertEqual(status, 0)
        self.assertEqual(out.count("the line isn't part of the configuration."), 2)

    def test_a_refused_configuration(self):
        refused = json.dumps({"refused": refusal(1, "UnsupportedDirective", file=MAIN, line=2)})
        status, out, _ = self.audit(self.fake(['"check"', refused], PROVED), CALM)
        self.assertEqual(status, 1)
        self.assert_in_each(["[2] Refused: UnsupportedDirective (1)", "httpd.conf:2  RewriteRule a b", "To do: ",
                             "1 question asked"], out)


class CommandLine(Folder):
    """tools/audit as it is started."""

    def test_wrong_words(self):
        for words_given in (["--new"], [], ["a", "b"], ["--seconds", "0", "a"], ["--most", "x", "a"],
                            ["--host", "a b", "a"], ["/nonexistent/world"], [str(self.folder)]):
            with self.subTest(words_given):
                ran = subprocess.run([sys.executable, AUDIT, "--hc", "/nonexistent", *words_given],
                                     capture_output=True, stdin=subprocess.DEVNULL, timeout=60)
                self.assertEqual((ran.returncode, ran.stdout, ran.stderr.count(b"Traceback")), (2, b"", 0))

    def test_help(self):
        ran = subprocess.run([sys.executable, AUDIT, "--help"], capture_output=True, timeout=60)
        told = ["--seconds N", "--most N", "--host NAME", "exit status", "tools/pack"]
        self.assert_in_each(told, ran.stdout.decode())

    def test_standard_input_script_and_cells(self):
        script = self.folder / "out.jsonl"
        status, out, _ = self.audit(self.fake(CHECKED, PROVED), "-", "--script", str(script), "--cells", "7",
                                    given=lines_of(CALM))
        self.assertEqual(status, 1)
        does = [json.loads(line)["do"] for line in script.read_text().splitlines()]
        self.assertEqual(does, ["put", "check", "decide", "decide", "decide"])
        self.assertIn("[5] Dead rule", out)

    def test_a_script_is_not_written_over_its_world(self):
        world = self.world(CALM)
        status, _, errors = self.audit(self.fake(CHECKED), world, "--script", world)
        self.assertEqual((status, pathlib.Path(world).read_bytes()), (2, lines_of(CALM)))
        self.assertIn("over the world", errors)

    def test_most_and_page(self):
        status, out, _ = self.audit(self.fake(CHECKED, PROVED), CALM, "--most", "1", "--html", "--date", "a<b")
        self.assertEqual(status, 1)
        found = self.assert_page(out)
        self.assert_in_each(["Left out", "Audit of a configuration", "a<b"], found.text)

    def test_a_large_world(self):
        host = "<VirtualHost *:80>\nServerName h{0}\nDocumentRoot /srv/d{0}\nRewriteRule a b\n</VirtualHost>\n"
        hosts = "".join(host.format(n) for n in range(500))
        commands = [put(MAIN, "DocumentRoot /srv\n" + hosts)]
        commands += [listed(f"/srv/d{n % 500}/{'.ht' if n % 50 == 0 else ''}f{n}") for n in range(30000)]
        commands += [put(f"/srv/d{n}/.htaccess", "Require ip 10\nRewriteRule a b\n") for n in range(500)]
        before = time.monotonic()
        status, out, _ = self.audit(self.fake(CHECKED, PROVED, SERVED), commands, "--most", "200")
        self.assertEqual(status, 1)
        self.assertIn("201 questions asked of a world of 30,501 lines.", out)
        self.assertLess(time.monotonic() - before, 40)


# ---- with hc itself

LEAK = ("DocumentRoot /srv\nRewriteEngine On\nRewriteRule ^/open/(.*)$ /srv/secret/$1 [L]\n<Directory /srv/secret>\n"
        "Require ip 10.0.0.0/8\n</Directory>\n")
OPEN = "<Location /open>\nRequire all granted\n</Location>\n"
ALLOW = "DocumentRoot /srv\n<Directory /srv>\nAllowOverride %s\n</Directory>\n"


@unittest.skipUnless(HC, "HC names no program")
class Real(Folder):
    """Small worlds, audited with hc."""

    def real(self, commands, *more):
        return self.audit(HC, commands, *more)

    def test_a_leak_and_its_mending(self):
        files = [put("/srv/secret/k", "")]
        status, out, _ = self.real([put(MAIN, LEAK + OPEN), *files])
        self.assertEqual(status, 1)
        self.assertRegex(out, r"\[4\] Refuted: GET http://localhost/open/\S* breaks the claim")
        self.assert_in_each(["httpd.conf:5  Require ip 10.0.0.0/8", "curl -i", "Because:\n", "<Location /open> applies",
                             "Findings: 1 refuted.\n"], out)
        status, out, _ = self.real([put(MAIN, LEAK), *files])
        self.assertEqual(status, 0, out)
        self.assertIn("Proved: the Require of /etc/httpd/conf/httpd.conf:5 is in force for all below /srv/secret", out)

    def test_a_dead_rule(self):
        text = "DocumentRoot /srv\nRewriteEngine On\nRewriteRule ^/a /b [L]\nRewriteRule ^/ab /c [L]\n"
        status, out, _ = self.real([put(MAIN, text)])
        self.assertEqual(status, 1)
        self.assert_in_each(["Dead rule: The RewriteRule of /etc/httpd/conf/httpd.conf:4 ", "Findings: 1 dead.\n",
                             "1. /etc/httpd/conf/httpd.conf:3\n"], out)

    def test_a_rule_for_another_method_is_in_use(self):
        text = "DocumentRoot /srv\nRewriteEngine On\nRewriteCond %{REQUEST_METHOD} ^TRAC[EK]\nRewriteRule . - [F]\n"
        status, out, _ = self.real([put(MAIN, text)])
        self.assertEqual(status, 0, out)

    def test_a_loop(self):
        text = "RewriteEngine On\nRewriteBase /\nRewriteRule ^f(.*)$ fa$1\n"
        commands = [put(MAIN, ALLOW % "All" + "LimitInternalRecursion 2\n"), put("/srv/.htaccess", text)]
        status, out, _ = self.real([*commands, listed("/srv/f")], "--seconds", "20")
        self.assertEqual(status, 1)
        self.assertIn("restarted more often than the configuration allows", out)

    def test_a_htaccess_with_a_bad_line(self):
        status, out, _ = self.real([put(MAIN, ALLOW % "All"), put("/srv/d/.htaccess", "\nRubbish on\n"),
                                    listed("/srv/d/f")])
        self.assertEqual(status, 1)
        self.assert_in_each(["Broken .htaccess: GET http://localhost/d/f meets", "/srv/d/.htaccess:2  Rubbish on"], out)

    def test_a_htaccess_that_is_never_read(self):
        files = [put("/srv/d/.htaccess", "Require ip 10\n"), listed("/srv/d/f")]
        status, out, _ = self.real([put(MAIN, ALLOW % "None"), *files])
        self.assertEqual(status, 1)
        self.assert_in_each(["Never read: /srv/d/.htaccess is never read", "/srv/d/.htaccess:1  Require ip 10",
                             "Findings: 1 refuted, 1 served, 1 never read.\n"], out)
        hidden = '<Files ".ht*">\nRequire all denied\n</Files>\n'
        status, out, _ = self.real([put(MAIN, ALLOW % "All" + hidden), *files])
        self.assertEqual(status, 0, out)

    def test_a_name_that_is_served(self):
        status, out, _ = self.real([put(MAIN, "DocumentRoot /srv\n"), listed("/srv/x/.htpasswd")])
        self.assertEqual(status, 1)
        self.assert_in_each(["Served: GET http://localhost/x/.htpasswd is served /srv/x/.htpasswd.", "curl -i",
                             "Because:"], out)

    def test_a_refused_configuration(self):
        status, out, _ = self.real([put(MAIN, "DocumentRoot /srv\nRubbish\n"), listed("/srv/.htpasswd")])
        self.assertEqual((status, out.count("] Refused: "), out.count("Served")), (1, 1, 0))
        self.assertIn("httpd.conf:2  Rubbish", out)

    def test_hosts(self):
        text = ("DocumentRoot /srv\n<VirtualHost *:80>\nServerName a.org\nServerAlias b.org\nDocumentRoot /srv/a\n"
                "RewriteEngine On\nRewriteCond %{HTTP_HOST} =b.org\nRewriteRule ^ - [F]\n</VirtualHost>\n")
        status, out, _ = self.real([put(MAIN, text)])
        self.assertEqual(status, 0, out)
        self.assert_in_each(["a.org by http://a.org and http://b.org", "1 RewriteRule in use"], out)
        status, out, _ = self.real([put(MAIN, text)], "--host", "a.org")
        self.assertEqual(status, 1)
        self.assertIn("matches for no request to http://a.org.", out)

    def test_a_port_of_a_module_that_is_not_loaded(self):
        text = ("LoadModule dir_module m.so\n%s" + PORTS + "<Directory />\nRequire all denied\n</Directory>\n"
                "<Directory /var/www>\nRequire all granted\n</Directory>\n<VirtualHost *:80>\n"
                "DocumentRoot /var/www/html\n</VirtualHost>\n")
        files = [listed("/var/www/html/index.html")]
        status, out, _ = self.real([put(MAIN, text % ""), *files])
        self.assertEqual(status, 0, out)
        self.assert_in_each(["each request to http://localhost ends", "conf:4: its port 443 isn't asked for"], out)
        status, out, _ = self.real([put(MAIN, text % "LoadModule ssl_module m.so\n"), *files])
        self.assertEqual(status, 1)
        self.assert_in_each(["Outside: GET https://localhost/", "(no root)", "Findings: 2 outside.\n"], out)

    def test_escapes(self):
        names = ["a.b", "c+[d]", "e$^(f)", "g{1}|h", "i*?", "j\\\\k", "é", "l m"]
        text = "DocumentRoot /srv\n"
        wild = ("*", "?", "[", "\\")
        for name in [name for name in names if not any(sign in name for sign in wild)]:
            text += f'<Directory "/srv/{name}">\nRequire ip 10\n</Directory>\n'
        status, out, _ = self.real([put(MAIN, text), *[listed(f"/srv/{name}/f") for name in names]])
        self.assertEqual(status, 0, out)
        self.assertEqual(out.count("is in force for all below"), 5)
        files = [put(f"/srv/{name}/.htaccess", "Require ip 10\n") for name in names]
        keep = '<Files ".ht*">\nRequire all denied\n</Files>\n'
        status, out, _ = self.real([put(MAIN, ALLOW % "All" + keep), *files])
        self.assertEqual(out.count("is in force for all below"), 8, out)

    def test_the_script(self):
        script = self.folder / "out.jsonl"
        self.real([put(MAIN, LEAK + OPEN), put("/srv/secret/k", "")], "--script", str(script))
        with open(script, "rb") as given:
            ran = subprocess.run([HC], stdin=given, capture_output=True, timeout=60)
        shown = subprocess.run([sys.executable, str(TOOLS / "show"), "--script", str(script)], input=ran.stdout,
                               capture_output=True, timeout=60).stdout.decode()
        self.assert_in_each(["[4] Refuted: GET http://localhost/open/", "2 edits done."], shown)


# ---- the sources


class Sources(Case):
    """The rules of the repository."""

    FILES = sorted([*TOOLS.glob("hc_audit*.py"), TOOLS / "audit"])

    def test_lines_and_functions(self):
        for path in [*self.FILES, pathlib.Path(__file__)]:
            long = [n for n, line in enumerate(path.read_bytes().split(b"\n"), 1) if len(line) > 120]
            self.assertEqual((path.name, long), (path.name, []))
        for path in self.FILES:
            for node in ast.walk(ast.parse(path.read_text("utf-8"))):
                if isinstance(node, ast.FunctionDef):
                    self.assertLess(node.end_lineno - node.lineno, 40, f"{path.name}: {node.name}")

    def test_older_grammar(self):
        for path in self.FILES:
            ast.parse(path.read_text("utf-8"), feature_version=(3, 9))

    def test_the_command_can_be_imported(self):
        loader = importlib.machinery.SourceFileLoader("hc_audit_command", AUDIT)
        module = importlib.util.module_from_spec(importlib.util.spec_from_loader("hc_audit_command", loader))
        loader.exec_module(module)
        self.assertTrue(callable(module.main))


if __name__ == "__main__":
    unittest.main()
