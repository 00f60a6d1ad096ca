"""Tests of tools/show and of the modules that it stands on."""

import ast
import html.parser
import io
import json
import os
import pathlib
import pty
import re
import select
import shlex
import shutil
import socket
import subprocess
import sys
import tempfile
import threading
import unittest

sys.dont_write_bytecode = True

TOOLS = pathlib.Path(__file__).resolve().parent.parent
TOP = TOOLS.parent
SHOW = str(TOOLS / "show")
HC = os.environ.get("HC")
sys.path.insert(0, str(TOOLS))

import hc_report  # noqa: E402
from hc_report_files import Command, Files, byte_of_pattern, words  # noqa: E402
from hc_report_requests import Request, curl_line, curl_notes, set_words  # noqa: E402
from hc_report_texts import plain, printed, shown, source_shown, undo  # noqa: E402
from hc_report_words import CONDITIONS, KINDS, LIMITS, OUTSIDE, REFUSALS  # noqa: E402

MAIN = "/etc/httpd/conf/httpd.conf"
REQUEST = {"client": "0.0.0.0", "headers": {}, "host": "h", "method": "GET", "port": 80, "scheme": "http",
           "server": "10.0.0.1", "target": "/"}
HOSTILE = "\x1b[31m\x07\x9b2J\r\n</script><script>alert(1)</script>\"'&<b>\u202e\ufeff\x7f\u2028\ud800"


def lines_of(values):
    """Values as lines of JSON; bytes stand as they are."""
    return b"".join(v if isinstance(v, bytes) else json.dumps(v).encode() + b"\n" for v in values)


def told(replies, script=None):
    """The entries of replies, with the commands beside them where there are any."""
    given = io.BytesIO(lines_of(script)) if script is not None else None
    return hc_report.entries(io.BytesIO(lines_of(replies)), given)


def text_of(replies, script=None, everything=False):
    """What is printed for replies."""
    out = io.StringIO()
    hc_report.print_text(told(replies, script), out, everything=everything)
    return out.getvalue()


def page_of(replies, script=None, **named):
    """The page of replies."""
    return hc_report.html_page(told(replies, script), **named)[0]


def put(path, text):
    return {"do": "put", "path": path, "text": text}


def refusal(code, name, **fields):
    return {"at": 0, "code": code, "field": "", "file": "", "line": 0, "name": name, **fields}


def shown_bytes(data):
    """Bytes as replies print them."""
    return "".join(
        "\\\\" if byte == 0x5C else chr(byte) if 0x20 <= byte <= 0x7E else f"\\x{byte:02x}" for byte in data
    )


class Page(html.parser.HTMLParser):
    """What stands in a page: its tags, its anchors and its text."""

    def __init__(self, page):
        super().__init__()
        self.tags, self.ids, self.links, self.text = set(), [], [], ""
        self.feed(page)

    def handle_starttag(self, tag, attrs):
        self.tags.add(tag)
        self.ids += [value for name, value in attrs if name == "id"]
        self.links += [value for name, value in attrs if name == "href"]

    def handle_data(self, data):
        self.text += data


TAGS = {
    "html", "head", "meta", "title", "style", "body", "main", "header", "h1", "p", "section", "h2", "table", "thead",
    "tbody", "tfoot", "tr", "th", "td", "article", "h3", "a", "b", "span", "code", "pre", "ol", "li", "footer",
}


class Case(unittest.TestCase):
    """Assertions on what is printed."""

    def assert_safe(self, text):
        """No character reaches a terminal that isn't printable."""
        odd = {char for char in text if not char.isprintable() and char != "\n"}
        self.assertEqual(odd, set())

    def assert_page(self, page):
        """A page has known tags alone, and leads nowhere else."""
        self.assert_safe(page)
        found = Page(page)
        self.assertLessEqual(found.tags, TAGS)
        self.assertEqual(len(found.ids), len(set(found.ids)))
        self.assertEqual([link for link in found.links if link[:1] != "#" or link[1:] not in found.ids], [])
        self.assertNotIn("url(", page)
        return found

    def assert_in_each(self, sentences, text):
        for sentence in sentences:
            self.assertIn(sentence, text)


# ---- the examples

EXAMPLES = {
    "first": [
        "GET http://localhost/image/a.gif is served /ftp/pub/image/a.gif.",
        "GET http://localhost/image comes to the directory /ftp/pub/image.",
        "GET http://localhost/imagefoo is not found.",
        "2 edits done.\n3 questions: 3 answered.",
    ],
    "server": [
        "The files make a configuration with no virtual host.",
        "GET http://localhost/.htaccess is answered 403 (Forbidden).",
    ],
    "leak": [
        "GET http://localhost/open/k is served /srv/secret/k.\n",
        "1. the main server answers\n",
        "2. the request begins with the path /open/k\n",
        f"3. {MAIN}:3 RewriteRule ^/open/(.*)$ /secret/$1 [L] matched\n",
        "4. the text is now /secret/k\n",
        "5. the file name is /srv/secret/k\n",
        "6. /srv/secret/k is a file\n",
        "7. no Require is in force, so everyone may pass\n",
        f"It rests on the text of {MAIN} and what stands at /secret, /srv, /srv/secret and /srv/secret/k.",
        "[9] GET http://localhost/open/k is served /srv/secret/k.\n    The request comes from the client 10.1.2.3.",
    ],
    "wordpress": [
        "is served /var/www/html/index.php, with the path information /x.",
        "/var/www/html/.htaccess:6 RewriteRule ^index\\.php$ - [L] didn't match",
        "/var/www/html/.htaccess:7 RewriteCond %{REQUEST_FILENAME} !-f held",
        "15. the request is restarted with the path /index.php",
        "16. pass 1 begins with the path /index.php",
        "/var/www/html/2024 isn't there, and /post is left as path information",
        "7. /var/www/html/.htaccess applies",
    ],
    "redirects": [
        "GET http://www.example.org/old/f is sent to https://www.example.org/old/f with the status 301",
        "http://www.example.org/old/f is redirected 3 times among the named servers, and then is served /org/new/f.",
        "is redirected once among the named servers, and then is sent to https://example.org/old/f",
        "The location is of no server that is named, so it wasn't followed.",
        "Broken chain: GET http://example.org/round is redirected 20 times among the named servers, and then is sent",
        "The redirects go on behind the 20th",
    ],
    "claims": [
        "[4] Proved: No request of the scope runs into a limit of rounds or of restarts.",
        "[7] Refuted: GET http://localhost/open/ breaks the claim: it comes to the directory /srv/secret/.",
        f"a file or a directory matching ^/srv/secret/, the Require of {MAIN}:5 was asked.",
        f"        {MAIN}:5  Require ip 10.0.0.0/8\n",
        "curl -i --path-as-is --resolve localhost:80:192.0.2.1 -X GET -H User-Agent: -H Accept: "
        "'http://localhost:80/open/'\n",
        "curl can't choose the client: hc's request comes from 0.0.0.0.",
        f"[12] Proved: The RewriteRule of {MAIN}:6 matches for no request of the scope.",
        f"        {MAIN}:6  RewriteRule ^/intern/ - [F]\n",
        "clients of 10.1.0.0/16, paths matching ^/intern/, any query and any headers.",
        "[13] Refuted: GET http://localhost/intern/ breaks the claim: it is answered 403 (Forbidden).",
        "7 edits done.\n6 questions: 2 refuted, 4 proved.",
    ],
    "invariant": [
        "[3] Rejected: The invariant doesn't show the claim: K2 is false",
        "Cell 0 (counted from 0) stands where a pass begins, with rank 0 and path matching ^/[a-z]*$.",
        f"1. {MAIN}:3 RewriteRule ^(/.*)x$ $1 [N] matched",
        "No cell stands there, or none has the empty text.",
        "No cell there has the text /x.",
        "[5] Accepted: No request of the scope runs into a limit of rounds or of restarts, by an invariant of 2 cells.",
        f"1. {MAIN}:3 RewriteRule ^(/.*)x$ $1yy [N] matched",
        "4 questions: 3 rejected, 1 accepted.",
    ],
}


class Examples(Case):
    """Each example, with its replies."""

    def example(self, name):
        script, replies = TOP / "examples" / f"{name}.jsonl", TOP / "examples" / f"{name}.replies"
        if not replies.is_file():
            self.skipTest(f"no example {name} here")
        return [replies.read_bytes()], [script.read_bytes()]

    def test_each_has_its_sentences(self):
        for name, sentences in EXAMPLES.items():
            with self.subTest(name):
                text = text_of(*self.example(name))
                self.assert_in_each(sentences, text)

    def test_nothing_in_them_is_unknown(self):
        for path in sorted((TOP / "examples").glob("*.replies")):
            for script in (None, [path.with_suffix(".jsonl").read_bytes()]):
                with self.subTest(path.name, with_script=script is not None):
                    text = text_of([path.read_bytes()], script, everything=True)
                    self.assert_safe(text)
                    self.assertNotIn("nknown", text)
                    self.assertEqual(text.count("\n[") + 1, path.read_bytes().count(b"\n"))
                    found = self.assert_page(page_of([path.read_bytes()], script, everything=True))
                    self.assertEqual(len(found.ids), path.read_bytes().count(b"\n"))

    def test_without_a_script(self):
        replies, _ = self.example("claims")
        text = text_of(replies)
        self.assertIn("[4] Proved: The claim holds of each request of its scope.", text)
        self.assertIn("[7] Refuted: GET http://localhost/open/ breaks the claim", text)
        self.assertNotIn("The scope", text)
        replies, _ = self.example("leak")
        self.assertIn("The request of line 5 is served /srv/secret/k.", text_of(replies))


# ---- outcomes, events, refusals


class Outcomes(Case):
    """Each outcome has its sentence, and one on what it means."""

    def test_each(self):
        rows = [
            ({"file": {"info": "", "path": "/f"}}, "is served /f.", "handlers aren't looked at"),
            ({"file": {"info": "/i", "path": "/f"}}, "is served /f, with the path information /i.", "handlers"),
            ({"directory": "/d/"}, "comes to the directory /d/.", "an index, a listing or an error"),
            ({"not_found": True}, "is not found.", "what wasn't handed in counts as absent"),
            ({"redirect": {"location": "http://a/b?c", "status": 301}},
             "is sent to http://a/b?c with the status 301 (Moved Permanently).", "told to ask there"),
            ({"status": 403}, "is answered 403 (Forbidden).", "kept out"),
            ({"status": 410}, "is answered 410 (Gone).", "gone"),
            ({"status": 599}, "is answered 599.", "says this status"),
            ({"limit": "rounds"}, "goes round in its rules more often than", "with N that keeps matching"),
            ({"limit": "redirects"}, "is restarted more often than", "LimitInternalRecursion"),
            ({"ht_refused": refusal(29, "OverrideNotAllowed", file="/a/.htaccess", line=2)},
             "meets a .htaccess that isn't read, OverrideNotAllowed (29) at /a/.htaccess:2.", "httpd answers 500"),
        ]
        for outcome, sentence, means in rows:
            with self.subTest(outcome):
                text = text_of([{"outcome": outcome}], [{"do": "ask", "target": "/x"}])
                self.assertIn("GET http://localhost/x " + sentence, text)
                self.assertIn(means, text)
                self.assertIn("The request of line 1 " + sentence, text_of([{"outcome": outcome}]))

    def test_each_reason_of_outside(self):
        self.assertEqual(len(OUTSIDE), 7)
        readme = (TOP / "README.md").read_text("utf-8")
        for reason, means in OUTSIDE.items():
            with self.subTest(reason):
                self.assertIn(f"`{reason}`", readme)
                text = text_of([{"outcome": {"outside": reason}}])
                self.assertIn(f"is outside of what is modelled ({reason}).", text)
                self.assertIn(means.replace("`", ""), text)
                self.assertIn("neither that it is served nor that it is refused", text)

    def test_a_request_with_all_its_fields(self):
        ask = {"do": "ask", "target": "/x?y", "method": "POST", "scheme": "https", "server": "10.0.0.1", "port": 8443,
               "host": "a.example", "client": "10.1.2.3", "headers": {"User-Agent": "x y", "A": ""}}
        text = text_of([{"outcome": {"limit": "rounds"}}], [ask])
        self.assertIn("[1] Limit: POST https://a.example:8443/x?y goes round", text)
        self.assertIn("The request comes from the client 10.1.2.3 to the server 10.0.0.1 with the headers"
                      " User-Agent: x y and A: .", text)
        self.assertIn("curl -i --path-as-is --http1.1 --resolve a.example:8443:10.0.0.1 -X POST -H Accept: "
                      "-H 'User-Agent: x y' -H 'A;' 'https://a.example:8443/x?y'", text)
        text = text_of([{"outcome": {"not_found": True}}], [{"do": "ask", "target": "/x", "host": ""}])
        self.assertIn("GET http://192.0.2.1/x without a Host header is not found.", text)
        text = text_of([{"outcome": {"not_found": True}}], [{"do": "ask", "target": "/x", "host": "", "server": "::1"}])
        self.assertIn("GET http://[::1]/x without a Host header is not found.", text)

    def test_chains(self):
        follow = {"do": "follow", "target": "/x", "hosts": [{"host": "a", "port": 80, "scheme": "http"}]}
        rows = [
            (0, "ended", "GET http://localhost/x is not found.\n"),
            (1, "ended", "GET http://localhost/x is redirected once among the named servers, and then is not found."),
            (2, "away", "is redirected 2 times among the named servers, and then is not found."),
            (0, "bad target", "Broken chain: GET http://localhost/x is not found."),
            (20, "too many", "browsers give up"),
        ]
        for steps, stop, sentence in rows:
            with self.subTest(stop, steps=steps):
                reply = {"followed": {"outcome": {"not_found": True}, "steps": steps, "stop": stop}}
                self.assertIn(sentence, text_of([reply], [follow]))
        self.assertIn("nknown", text_of([{"followed": {"outcome": {"not_found": True}, "steps": 0, "stop": "x"}}]))
        text = text_of([{"no_memory": True}], [follow])
        self.assertIn("follow for GET http://localhost/x; nothing was answered", text)

    def test_counts(self):
        self.assertIn("with 1 virtual host.", text_of([{"config": {"hosts": 1}}]))
        self.assertIn("with 12 virtual hosts.", text_of([{"config": {"hosts": 12}}]))
        text = text_of([{"stats": {"asks": 5, "evaluations": 3}}])
        self.assertIn("5 asks had an outcome, for 3 of them no answer was kept.", text)
        counts = {"asks": 1, "denied": 2, "evaluations": 3, "files": 4, "missing": 5, "no_memory": 0}
        self.assertIn("denied 2, evaluations 3", text_of([{"summary": counts}]))


EVENTS = [
    (["host", "", 0], "the main server answers"),
    (["host", MAIN, 2], f"{MAIN}:2 <VirtualHost *:80> is the virtual host that answers"),
    (["pass", 0, "/a", ""], "the request begins with the path /a"),
    (["pass", 3, "/a", "q=1"], "pass 3 begins with the path /a and the query q=1"),
    (["cond", MAIN, 3, True, "RewriteCond a b"], f"{MAIN}:3 RewriteCond a b held"),
    (["cond", MAIN, 3, False, "RewriteCond a b"], f"{MAIN}:3 RewriteCond a b didn't hold"),
    (["rule", MAIN, 4, True, "RewriteRule a b"], f"{MAIN}:4 RewriteRule a b matched"),
    (["rule", MAIN, 4, False, "RewriteRule a b"], f"{MAIN}:4 RewriteRule a b didn't match"),
    (["text", "/t", ""], "the text is now /t"),
    (["text", "", "q"], "the text is now the empty text and the query q"),
    (["round", 2], "the rules begin again, in round 2"),
    (["redirect", MAIN, 5, "Redirect /z \\\\\\x0a  \"/f\""], f'{MAIN}:5 Redirect /z   "/f" answers'),
    (["map", "", 0, "/srv/f", ""], "the file name is /srv/f"),
    (["map", MAIN, 6, "/srv/f", "Alias /a /srv"], f"{MAIN}:6 Alias /a /srv gives the file name /srv/f"),
    (["walk", "/srv/f", "/i", "file"], "/srv/f is a file, and /i is left as path information"),
    (["walk", "/srv", "", "dir"], "/srv is a directory"),
    (["walk", "/srv/x", "", "absent"], "/srv/x isn't there"),
    (["section", MAIN, 7, "<Directory />"], f"{MAIN}:7 <Directory /> applies"),
    (["section", "/srv/.htaccess", 0, ""], "/srv/.htaccess applies"),
    (["auth", "granted"], "the Require lines let the request in"),
    (["auth", "denied"], "the Require lines keep the request out"),
    (["auth", "neutral"], "the Require lines in force say nothing, which keeps the request out"),
    (["auth", "none"], "no Require is in force, so everyone may pass"),
    (["restart", "/r"], "the request is restarted with the path /r"),
]


def trail_of(events, more=0, reads=()):
    return {"events": len(events) + more, "outcome": {"not_found": True}, "reads": list(reads), "trail": events}


class Trails(Case):
    """Each event of a trail has its sentence."""

    def test_each_event(self):
        script = [put(MAIN, "DocumentRoot /srv\n<VirtualHost *:80>\n"), {"do": "ask", "target": "/a"}]
        replies = [{"done": "put"}, trail_of([event for event, _ in EVENTS])]
        text = text_of(replies, script)
        for number, (event, sentence) in enumerate(EVENTS, 1):
            with self.subTest(event):
                self.assertIn(f" {number}. {sentence}\n", text)
        self.assertNotIn("nknown", text)
        self.assertEqual(self.assert_page(page_of(replies, script)).text.count("applies"), 2)

    def test_each_kind_of_docs_is_there(self):
        rules = (TOP / "docs" / "RULES.md").read_text("utf-8")
        named = set(re.findall(r'^\| `\["(\w+)",', rules, re.M))
        self.assertEqual(named, {event[0] for event, _ in EVENTS})

    def test_steps_that_are_not_told(self):
        self.assertIn(".. and 1,234 more that aren't told", text_of([trail_of([["round", 2]], more=1234)]))
        self.assertIn("1,234 more steps", page_of([trail_of([["round", 2]], more=1234)]))

    def test_reads(self):
        reads = [["text", "/a"], ["kind", "/b"], ["names", "/c"], ["kind", "/d"]]
        text = text_of([trail_of([], reads=reads)])
        self.assertIn("It rests on the text of /a, what stands at /b and /d and the names in /c.", text)
        text = text_of([trail_of([], reads=[["kind", f"/{n}"] for n in range(100)])])
        self.assertIn("/6, /7 and 92 others.", text)

    def test_unknown_events_are_shown(self):
        for event in (["new", 1], ["rule", 1], [], 7, ["walk", "/a", "", "socket"], ["auth", "x"], None, [["host"]]):
            with self.subTest(event):
                text = text_of([trail_of([event])])
                self.assertIn("1. an unknown event: " + json.dumps(event), text)
        self.assertIn('["new", 1] (unknown)', text_of([trail_of([], reads=[["new", 1]])]))


class Refusals(Case):
    """Each refusal has its name and what to do."""

    def test_the_table_is_that_of_docs(self):
        rules = (TOP / "docs" / "RULES.md").read_text("utf-8")
        named = {int(code): name for code, name in re.findall(r"^\| (\d+) \| ([A-Z]\w+) \|", rules, re.M)}
        self.assertEqual(named, {code: name for code, (name, _, _) in REFUSALS.items()})

    def test_each(self):
        for code, (name, what, advice) in REFUSALS.items():
            with self.subTest(code):
                text = text_of([{"refused": refusal(code, name, file="/a", line=3)}])
                self.assertIn(f"[1] Refused: {name} ({code}) at /a:3.", text)
                self.assertIn(what.replace("`", ""), text)
                self.assertIn("To do: " + advice.replace("`", ""), text)
                text = text_of([{"outcome": {"ht_refused": refusal(code, name, file="/.htaccess", line=1)}}])
                self.assertIn(f"{name} ({code}) at /.htaccess:1", text)

    def test_a_field(self):
        reply = {"refused": refusal(46, "BadCommand", field="cells")}
        text = text_of([reply], [{"do": "verify"}])
        self.assertIn("BadCommand (46) in cells.", text)
        self.assertIn("Asked was: verify; nothing was answered, and nothing changed.", text)

    def test_a_file_as_a_whole(self):
        text = text_of([{"refused": refusal(27, "NoDocumentRoot", file=MAIN)}], [{"do": "check"}])
        self.assertIn(f"NoDocumentRoot (27) at {MAIN}.", text)

    def test_the_pattern_of_a_set(self):
        script = [{"do": "decide", "claim": {"kind": "stops"}, "scope": {"path": {"pattern": "^/a(b"}}}]
        text = text_of([{"refused": refusal(14, "PatternSyntax", field="scope", at=3)}], script)
        self.assertIn("        ^/a(b\n           ^\n", text)
        script[0]["scope"]["query"] = {"pattern": "x"}
        text = text_of([{"refused": refusal(14, "PatternSyntax", field="scope", at=3)}], script)
        self.assertNotIn("^/a(b", text.replace("paths matching", ""))

    def test_an_unknown_code(self):
        text = text_of([{"refused": refusal(99, "NewRule", file="/a", line=1)}])
        self.assertIn("NewRule (99) at /a:1.", text)
        self.assertIn("This report knows no refusal of this code and name.", text)
        self.assertIn("knows no refusal", text_of([{"refused": refusal(1, "Other")}]))

    def test_the_same_refusal_again(self):
        reply = {"refused": refusal(1, "UnsupportedDirective", file=MAIN, line=1)}
        script = [put(MAIN, "A\n"), {"do": "check"}, {"do": "ask", "target": "/"}, put(MAIN, "B\n"), {"do": "check"}]
        text = text_of([{"done": "put"}, reply, reply, {"done": "put"}, reply], script)
        self.assertEqual(text.count("As at line 2, above."), 1)
        self.assertIn(f"{MAIN}:1  A\n", text)
        self.assertIn(f"{MAIN}:1  B\n", text)
        self.assertIn("3 questions: 3 refused.", text)


# ---- refused directives that may be left out

LEAVE_OUT = "To go on without it, where it changes no answer that you ask for, put this line before the question:"


def edit_in(text):
    """The edit that is printed for a refused line, or None."""
    lines = [line.strip() for line in text.split("\n")]
    return json.loads(lines[lines.index(LEAVE_OUT) + 1]) if LEAVE_OUT in lines else None


class LeftOut(Case):
    """A directive that hc doesn't know is refused with the edit that comments it out."""

    def hint(self, text, line=1, code=1, path="/c", more=()):
        """The edit that is printed where a line of a text is refused."""
        reply = {"refused": refusal(code, REFUSALS[code][0], file=shown_bytes(path.encode()), line=line)}
        script = [put(path, text), *more, {"do": "check"}]
        return edit_in(text_of([{"done": edit["do"]} for edit in script[:-1]] + [reply], script))

    def test_the_edit(self):
        for text, line, last, wanted in (
            ("Foo on\nBar\n", 1, 1, "# Foo on\n"), ("Bar\n\tFoo \"a\\b\" é\r\n", 2, 2, "# \tFoo \"a\\b\" é\r\n"),
            ("Foo", 1, 1, "# Foo"), ("a\nFoo \\\n  b \\\n\nBar\n", 2, 4, "# Foo \\\n  b \\\n\n"),
            ("Foo \\\nb", 1, 2, "# Foo \\\nb"), ("Foo \\", 1, 1, "# Foo \\"), ("Foo \\\n", 1, 1, "# Foo \\\n"),
        ):
            with self.subTest(text):
                edit = {"do": "edit", "path": "/é \"c", "from": line, "to": last, "text": wanted}
                self.assertEqual(self.hint(text, line, path="/é \"c"), edit)
                self.assertIsNone(self.hint("# one\n" + text, line + 9))

    def test_edits_before_it_are_followed(self):
        more = [{"do": "edit", "path": "/c", "from": 1, "to": 1, "text": "Bar\nFoo on\n"}]
        self.assertEqual(self.hint("a\nb\n", 2, more=more)["text"], "# Foo on\n")
        self.assertIsNone(self.hint("a\n", 1, more=[{"do": "drop", "path": "/c"}]))

    def test_codes(self):
        hinted = [code for code in REFUSALS if self.hint("Foo on\n", code=code)]
        self.assertEqual(hinted, [1, 13, 18, 19])

    def test_lines_that_may_not_go_alone(self):
        for text, line in (
            ("<Limit GET>\n</Limit>\n", 1), (" <Proxy *>\n", 1), ("</x>\n", 1), ("Require user a\n", 1),
            ("deny from all\n", 1), ("Order allow,deny\n", 1), ("SSLRequireSSL\n", 1), ("RewriteCond a b [X]\n", 1),
            ("${X} a\n", 1), ("RewriteCond a b\n# c\n\nRewriteRule a b [P]\n", 4), ("# a\n", 1), ("\n", 1),
            ("RewriteCond a \\\n b\nREWRITERULE a b [P]\n", 3),
        ):
            with self.subTest(text):
                self.assertIsNone(self.hint(text, line))
        for text, line in (("RewriteRule a b [P]\n", 1), ("RewriteCond a b\nRewriteRule a b\nRewriteRule a b [P]\n", 3),
                           ("# x \\\nRewriteCond a b\nRewriteRule a b [P]\n", 3)):
            with self.subTest(text):
                self.assertTrue(self.hint(text, line))

    def test_where_it_stands(self):
        reply = {"refused": refusal(1, "UnsupportedDirective", file="/c", line=1)}
        script = [put("/c", "Foo </pre>\x7f&\n"), {"do": "check"}, {"do": "check"}]
        text = text_of([{"done": "put"}, reply, reply], script)
        self.assert_safe(text)
        self.assertEqual(text.count(LEAVE_OUT), 1)
        self.assertEqual(edit_in(text)["text"], "# Foo </pre>\x7f&\n")
        self.assertLess(text.index("To do: "), text.index(LEAVE_OUT))
        found = self.assert_page(page_of([{"done": "put"}, reply], script))
        self.assertIn('{"do":"edit","path":"/c","from":1,"to":1,"text":"# Foo </pre>\\u007f&\\n"}', found.text)
        self.assertNotIn(LEAVE_OUT, text_of([{"done": "put"}, reply]))
        reply = {"outcome": {"ht_refused": refusal(1, "UnsupportedDirective", file="/c", line=1)}}
        self.assertIn(LEAVE_OUT, text_of([{"done": "put"}, reply], [script[0], {"do": "ask", "target": "/"}]))

    def test_texts_that_no_line_can_have(self):
        self.assertIsNone(self.hint("Foo " + "x" * 100000 + "\n"))
        for path, text in (("/c", "Foo \ud800\n"), ("/\ud800", "Foo\n")):
            reply = {"refused": refusal(1, "UnsupportedDirective", file=path, line=1)}
            self.assertIsNone(edit_in(text_of([{"done": "put"}, reply], [put(path, text), {"do": "check"}])))


@unittest.skipUnless(HC, "HC names no program")
class LeftOutOfHc(Case):
    """With hc: the refusal is gone behind the edit, and the line behind it is looked at."""

    def replies(self, script):
        ran = subprocess.run([HC], input=lines_of(script), capture_output=True, timeout=120, check=True)
        return [json.loads(line) for line in ran.stdout.splitlines()]

    def test_the_refusal_is_gone(self):
        check = {"do": "check"}
        for text, place in (
            ("DocumentRoot /srv\n%s", MAIN), ("DocumentRoot /srv\n<IfModule mod_ssl.c>\n%s</IfModule>\n", MAIN),
            ("DocumentRoot /srv\n<Directory /srv>\nAllowOverride All\n</Directory>\n", "/srv/.htaccess"),
        ):
            for line in ("\tFoo \"é\\x\" on\r\n", "Foo \\\n  # b \\\n\tc\n", "Foo a\\\n\n", "RewriteRule a b [P]\n",
                         "RedirectMatch ^/(?=a) /b\n", "RewriteRule a %{NO_SUCH}\n"):
                with self.subTest(text + line):
                    self.left_out(text, place, line, check)

    def left_out(self, text, place, line, check):
        """Two refused lines, one behind the other: each is left out by the edit that is printed for it."""
        asked = {"do": "ask", "target": "/f"} if place != MAIN else check
        main = [put(MAIN, text % (line * 2) if place == MAIN else text)]
        script = main + ([put(place, line * 2)] if place != MAIN else [])
        script.append({"do": "list", "path": "/srv/f", "kind": "file"})
        numbers = []
        for _ in range(2):
            replies = self.replies([*script, asked])
            edit = edit_in(text_of(replies, [*script, asked]))
            self.assertIsNotNone(edit, replies[-1])
            numbers.append(edit["from"])
            script.append(edit)
        self.assertEqual(numbers[1] - numbers[0], line.count("\n"))
        replies = self.replies([*script, asked])
        self.assertEqual(replies[-2], {"done": "edit"})
        self.assertTrue({"config", "outcome"} & set(replies[-1]) and "refused" not in str(replies[-1]), replies[-1])


# ---- places


class Places(Case):
    """A place is shown with the text that its line has at that time."""

    def line(self, edits, path="/c", number=1):
        files = Files()
        for edit in edits:
            files.follow(Command(1, edit))
        return files.line(path.encode(), number)

    def edit(self, first, last, text):
        return {"do": "edit", "path": "/c", "from": first, "to": last, "text": text}

    def test_edits(self):
        base = put("/c", "a\nb\nc")
        rows = [
            ([base], ["a", "b", "c", None]),
            ([base, self.edit(1, 0, "x\ny\n")], ["x", "y", "a", "b", "c", None]),
            ([base, self.edit(2, 2, "")], ["a", "c", None]),
            ([base, self.edit(2, 2, "x")], ["a", "xc", None]),
            ([base, self.edit(4, 3, "d\n")], ["a", "b", "cd", None]),
            ([base, self.edit(1, 3, "")], [None]),
            ([base, self.edit(5, 4, "d\n")], ["a", "b", "c", None]),
            ([base, self.edit(0, 0, "d\n"), self.edit(3, 1, "d\n"), self.edit(True, 1, "")], ["a", "b", "c", None]),
            ([base, {"do": "list", "path": "/c", "kind": "file"}], [None]),
            ([base, {"do": "list", "path": "/c", "kind": "dir"}], ["a"]),
            ([base, {"do": "drop", "path": "/c"}], [None]),
            ([base, {"do": "drop", "path": "/"}], ["a"]),
            ([base, {"do": "drop", "path": "/cc"}, {"do": "main", "path": "/c"}, {"do": "put", "path": 3}], ["a"]),
            ([base, put("/c", "z")], ["z", None]),
        ]
        for edits, wanted in rows:
            with self.subTest(edits[1:]):
                found = [self.line(edits, number=number) for number in range(1, len(wanted) + 1)]
                self.assertEqual(found, [line if line is None else line.encode() for line in wanted])

    def test_a_drop_takes_what_is_below(self):
        edits = [put("/d/e/f", "x"), put("/dd", "y"), {"do": "drop", "path": "/d"}]
        self.assertIsNone(self.line(edits, "/d/e/f"))
        self.assertEqual(self.line(edits, "/dd"), b"y")

    def test_joined_lines(self):
        edits = [put("/c", " a \\\n\tb\\\nc \nd\\\r\ne\\")]
        self.assertEqual(self.line(edits), b"a \tbc")
        self.assertEqual(self.line(edits, number=4), b"d\\")
        self.assertEqual(self.line(edits, number=5), b"e\\")

    def test_an_edit_moves_the_line_that_is_quoted(self):
        decide = {"do": "decide", "claim": {"kind": "shadowed", "file": MAIN, "line": 3}, "scope": {}}
        edit = {"do": "edit", "path": MAIN, "from": 2, "to": 1, "text": "# one\n# two\n"}
        moved = {"do": "decide", "claim": {"kind": "shadowed", "file": MAIN, "line": 5}, "scope": {}}
        script = [put(MAIN, "a\nb\nRewriteRule ^/old - [F]\n"), decide, edit, moved, decide]
        undecided = {"undecided": {"branch": [["rule", MAIN, 5, True]]}}
        text = text_of([{"done": "put"}, {"proved": True}, {"done": "edit"}, undecided, {"proved": True}], script)
        self.assertIn(f"[2] Proved: The RewriteRule of {MAIN}:3 matches for no", text)
        self.assertEqual(text.count(f"{MAIN}:3  RewriteRule ^/old - [F]"), 1)
        self.assertIn(f"1. {MAIN}:5 RewriteRule ^/old - [F] matched", text)
        self.assertIn(f"{MAIN}:3  # two", text)

    def test_an_edit_that_was_refused_is_not_followed(self):
        script = [put("/c", "a\n"), put("/c", "b\n"), put("/c", "c\n"), {"do": "check"}]
        replies = [{"done": "put"}, {"refused": refusal(41, "PathForm")}, {"no_memory": True},
                   {"refused": refusal(1, "UnsupportedDirective", file="/c", line=1)}]
        text = text_of(replies, script)
        self.assertIn("/c:1  a\n", text)
        self.assertIn("Asked was: put of /c; nothing was answered, and nothing changed.", text)
        self.assertIn("[3] No memory: There was no memory for the answer", text)

    def test_bytes_of_paths(self):
        name = "/é\\x41 \u00a0/c"
        path = shown_bytes(name.encode())
        text = text_of([{"done": "put"}, {"refused": refusal(1, "UnsupportedDirective", file=path, line=1)}],
                       [put(name, "Line\n"), {"do": "check"}])
        self.assertIn("/é\\\\x41 \\xc2\\xa0/c:1  Line\n", text)


class Carets(Case):
    """The byte of a refused pattern is marked in its line. Most rows are refusals that the program gave."""

    ROWS = [
        ("RewriteRule ^/(?=a)b - [L]", 2, "(?=a"),
        ("RewriteRule !^/a(b - [L]", 3, "(b"),
        ("RewriteCond %{HTTP_HOST} !^(a*)*$", 5, "*$"),
        ('RewriteRule "^/a b(c" - [L]', 5, '(c"'),
        ("RewriteRule ^/a\\ b(c - [L]", 6, "(c"),
        ("AliasMatch ^/x[a /y", 3, "[a"),
        ('AliasMatch "^/x\\\\d[b-a]" /y', 6, "b-a]"),
        ("RedirectMatch 301 ^/a++ /x", 4, "+ /x"),
        ("RedirectMatch ^/(a /x", 2, "(a"),
        ("redirectmatch GONE ^/(a", 2, "(a"),
        ('<DirectoryMatch "^/a{3,1}">', 3, "{3"),
        ('<Directory ~ "^/(?<n>a)">', 2, "(?<"),
        ('<Files "*[b-a]">', 2, "b-a"),
        ('<Location "/x[z-a]*">', 3, "z-a"),
        ('<If "%{REQUEST_URI} =~ /a(b/">', 1, "(b/"),
        ("<If \"%{REQUEST_URI} == 'x' && %{QUERY_STRING} !~ /(?i)a/\">", 0, "(?i)"),
        ("RewriteRule ^/éé( - [L]", 6, "( -"),
        ("RewriteRule ^/(a{255}){255} - [L]", 0, "^/(a"),
        ("Include /etc/[z-a].conf", 1, "z-a"),
        ('<FilesMatch "\\.(?:ht|(x)\\1)">', 11, "\\1"),
        ("RewriteRule ^(a ${X}", 1, "(a"),
        # where it can't be told
        ("RewriteRule ${D}a - [L]", 2, None),
        ("Include /etc/[z-a]/*.conf", 1, None),
        ("<If \"%{A} =~ /a/ || %{B} =~ /(/\">", 0, None),
        ("RewriteRule", 0, None),
        ("RewriteRule ^a -", 9, None),
        ("RewriteRule ^a -", -1, None),
        ("Alias /a /b", 1, None),
        ("<Directory>", 0, None),
        ("", 0, None),
    ]

    def test_each(self):
        for line, at, rest in self.ROWS:
            with self.subTest(line):
                byte = byte_of_pattern(line.encode(), at)
                self.assertEqual(None if byte is None else line.encode()[byte:].startswith(rest.encode()),
                                 None if rest is None else True)

    def caret_under(self, line, at):
        reply = {"refused": refusal(14, "PatternSyntax", file="/c", line=1, at=at)}
        lines = text_of([{"done": "put"}, reply], [put("/c", line + "\n"), {"do": "check"}]).split("\n")
        quoted = next(at for at, shown_line in enumerate(lines) if shown_line.startswith("        /c:1  "))
        self.assertEqual(lines[quoted + 1].strip(), "^")
        return lines[quoted], lines[quoted + 1].index("^")

    def test_it_stands_under_the_byte(self):
        quoted, column = self.caret_under("\tRewriteRule\t^/é\\\n  ( -", 4)
        self.assertTrue(quoted.endswith("RewriteRule ^/é  ( -"))
        self.assertEqual(column, len("        /c:1  RewriteRule ^/é"))
        quoted, column = self.caret_under("RewriteRule ^/\u65e5\u672c( -", 8)
        self.assertEqual(quoted[column - 2], "(")

    def test_long_lines_are_cut_around_it(self):
        quoted, column = self.caret_under("RewriteRule ^/" + "a" * 5000 + "(b" + "c" * 5000 + " -", 5002)
        self.assertLess(len(quoted), 200)
        self.assertEqual(quoted[column:column + 3], "(bc")

    def test_on_the_page(self):
        reply = {"refused": refusal(14, "PatternSyntax", file="/c", line=1, at=2)}
        page = page_of([{"done": "put"}, reply], [put("/c", "AliasMatch ^<( /x\n"), {"do": "check"}])
        self.assertIn('AliasMatch ^&lt;( /x\n             <b class="grave">^</b></pre>', page)

    def test_words(self):
        self.assertEqual([word for word, _ in words(b'a "b c"d e\\\\f \'g\\\'h\'')],
                         [b"a", b"b c", b"d", b"e\\f", b"g'h"])
        self.assertEqual([word for word, _ in words(b'a\\ b "c\\"d" e', True)], [b"a\\ b", b"c\\", b'd"', b"e"])


# ---- claims


class Claims(Case):
    """Claims, scopes and invariants in words."""

    STOPS = {"do": "decide", "claim": {"kind": "stops"}, "scope": {}}

    def test_undecided(self):
        branch = [["cond", MAIN, 1, True], ["cond", MAIN, 2, False], ["rule", MAIN, 3, True], ["rule", MAIN, 4, False]]
        text = text_of([{"undecided": {"branch": branch}}], [self.STOPS])
        self.assertIn("[1] Undecided: It isn't known whether no request of the scope runs into a limit", text)
        self.assert_in_each([f"1. {MAIN}:1 held\n", f"2. {MAIN}:2 didn't hold\n", f"3. {MAIN}:3 matched\n",
                             f"4. {MAIN}:4 didn't match\n", "Narrow the scope", "INVARIANTS.md"], text)
        claim = {"kind": "guarded", "target": {"pattern": "^/a"}, "file": MAIN, "line": 1}
        text = text_of([{"undecided": {"branch": branch}}], [{"do": "decide", "claim": claim, "scope": {}}])
        self.assertIn("It isn't known whether this holds: whenever a request of the scope is served a file", text)
        text = text_of([{"undecided": {"branch": []}}])
        self.assertIn("The branch decides nothing: no rule and no condition stood on its way.", text)

    def test_chains(self):
        hosts = [{"host": "a", "port": 80, "scheme": "http"}, {"host": "b", "port": 443, "scheme": "https"}]
        decide = {"do": "decide", "claim": {"kind": "ends", "hosts": hosts}, "scope": {}}
        text = text_of([{"proved": True}], [decide])
        self.assertIn("[1] Proved: Whenever a request of the scope is redirected among http://a:80 and https://b:443,"
                      " that comes to an end.", text)
        text = text_of([{"undecided": {"branch": []}}], [decide])
        self.assert_in_each(["this holds: whenever a request", "Narrow the scope"], text)
        self.assertNotIn("INVARIANTS", text + text_of([{"too_many": 3}], [decide]))
        request = {"client": "0.0.0.0", "headers": {}, "host": "a", "method": "GET", "port": 80, "scheme": "http",
                   "server": "192.0.2.1", "target": "/x"}
        outcome = {"redirect": {"location": "http://a/x", "status": 302}}
        text = text_of([{"refuted": {"outcome": outcome, "request": request}}], [decide])
        self.assert_in_each(["GET http://a/x breaks the claim: the last request of its chain is sent to http://a/x",
                             "go on behind the 20th", '{"do": "follow", "hosts": [{"host": "a"'], text)
        decide["claim"]["hosts"] = [{"host": "a"}]
        self.assertIn("[1] Proved: The claim holds", text_of([{"proved": True}], [decide]))

    def test_too_many(self):
        text = text_of([{"too_many": 20000}], [self.STOPS])
        self.assertIn("[1] Too many branches: The claim has 20,000 branches or more, so it wasn't decided.", text)
        self.assertIn("--cells", text)

    def test_each_condition(self):
        self.assertEqual(sorted(CONDITIONS), ["K1", "K2", "K3", "K4", "K5"])
        cells = [{"at": "pass", "rank": 0, "slots": {}},
                 {"at": "/srv", "rank": 1, "round": 2, "slots": {"end": {"literal": ""}, "env:A": {"any": True}}}]
        verify = {"do": "verify", "claim": {"kind": "stops"}, "scope": {}, "cells": cells}
        for name, (asks, advice) in CONDITIONS.items():
            with self.subTest(name):
                reply = {"rejected": {"branch": [], "cell": 1, "condition": name, "text": ""}}
                text = text_of([reply], [verify])
                self.assertIn(f"{name} is false, by which " + asks.replace("`", ""), text)
                self.assertIn("To do: " + advice.replace("`", ""), text)
                cell = ("Cell 1 (counted from 0) stands where the rules of /srv begin a further round, with rank 1,"
                        " round 2, end equal to the empty text and env:A of any kind.")
                self.assertEqual(cell in text, name != "K1")
                self.assertIn("Rejected: The invariant", text_of([reply]))
        reply = {"rejected": {"branch": [], "cell": 64, "condition": "K5", "text": ""}}
        self.assertIn("Cell 64 (counted from 0).", text_of([reply], [verify]))
        reply = {"rejected": {"branch": [], "cell": 0, "condition": "K1", "text": "/\\x0a\\\\"}}
        self.assertIn("No cell there has the text /\\x0a\\.", text_of([reply], [verify]))

    def test_refuted_outside(self):
        text = text_of([{"refuted": {"outcome": {"outside": "scheme"}, "request": REQUEST}}], [self.STOPS])
        self.assertIn("A request that ends outside breaks each claim", text)
        self.assertIn("it is outside of what is modelled (scheme).", text)
        self.assertNotIn("put your server's own", text)
        lines = text.split("\n")
        ask = json.loads(lines[lines.index("    To be told why, give hc this line:") + 1])
        self.assertEqual(ask, {"do": "ask", "trail": True, **REQUEST})

    def test_scopes(self):
        scope = {"methods": ["GET", "POST"], "scheme": "https", "host": "a.b", "port": 8443, "server": "10.0.0.1",
                 "client": "10.0.0.0/8", "query": {"or": [{"literal": "x"}, {"literal": ""}]},
                 "path": {"and": [{"pattern": "^/a"}, {"minus": [{"any": True}, {"literal": "/ab"}]}]}}
        text = text_of([{"proved": True}], [{**self.STOPS, "scope": scope}])
        self.assertIn("The scope: GET or POST requests to https://a.b:8443 (server 10.0.0.1), clients of 10.0.0.0/8,"
                      " paths (matching ^/a and (of any kind but not equal to /ab)),"
                      " queries (equal to x or equal to the empty text) and any headers.", text)

    def test_odd_claims_and_sets(self):
        deep = {"any": True}
        for _ in range(200):
            deep = {"and": [deep]}
        place = {"file": "/a", "line": 1}
        odd = [None, 3, [], {}, {"kind": []}, {"kind": "stops", "file": 3}, {"kind": "guarded", **place},
               {"kind": "shadowed", "file": "/a", "line": True}, {"kind": "guarded", "target": deep, **place}]
        for claim in odd:
            for scope in (None, [], {"methods": 3, "path": 3, "client": {}, "host": []}, {"path": deep}):
                with self.subTest(claim=str(claim)[:40], scope=str(scope)[:40]):
                    command = {"do": "decide", "claim": claim, "scope": scope}
                    self.assertIn("Proved: ", text_of([{"proved": True}], [command]))
                    verify = {"do": "verify", "claim": claim, "scope": scope, "cells": [3, {"at": "pass", "slots": 3}]}
                    reply = {"rejected": {"branch": [], "cell": 1, "condition": "K3", "text": ""}}
                    self.assertIn("Rejected: ", text_of([reply], [verify]))
        for value in (None, {"pattern": 3}, {"and": []}, {"minus": [{"any": True}]}, {"a": 1, "b": 2}):
            self.assertIsInstance(plain(set_words(value)), str)


# ---- bytes


class Bytes(Case):
    """Texts are read and shown byte by byte."""

    def test_undo(self):
        rows = [("a\\\\b", b"a\\b"), ("\\x1b", b"\x1b"), ("\\\\x1b", b"\\x1b"), ("\\\\\\x0a", b"\\\n"),
                ("\\xc3\\xa9", "é".encode()), ("\\", b"\\"), ("\\y", b"\\y"), ("\\x1", b"\\x1"), ("\\\\\\\\", b"\\\\")]
        for printed_text, data in rows:
            with self.subTest(printed_text):
                self.assertEqual(undo(printed_text), data)

    def test_each_byte_comes_back(self):
        data = bytes(range(256)) + b"\\x41\\\\x"
        self.assertEqual(undo(shown_bytes(data)), data)

    def test_what_is_shown(self):
        rows = [(b"a\\.b", "a\\.b"), (b"\x1b[0m", "\\x1b[0m"), (b"\\x1b", "\\\\x1b"), ("é".encode(), "é"),
                (b"\xff", "\\xff"), ("\u202e".encode(), "\\xe2\\x80\\xae"), ("\u00a0", "\\xc2\\xa0"),
                (b"a\tb", "a\\x09b")]
        for data, wanted in rows:
            with self.subTest(data):
                self.assertEqual(printed(data), wanted)
        self.assertEqual(shown(b""), "the empty text")
        self.assertEqual(source_shown(b"\ta\tb \\x41 \\\n c\r\n"), "a b \\x41  c")

    def test_long_texts_are_cut(self):
        self.assertEqual(printed("é" * 300, 5), "éé... (596 bytes more)")
        self.assertLess(len(text_of([{"outcome": {"directory": "/" + "x" * 10**6}}])), 1500)

    def test_an_answer_with_bytes(self):
        path = shown_bytes("/srv/é \\x\x01".encode())
        text = text_of([{"outcome": {"file": {"info": "", "path": path}}}])
        self.assertIn("is served /srv/é \\x\\x01.", text)


def hostile_pairs():
    """Replies and commands with hostile texts at each place."""
    h, line = HOSTILE, {"file": MAIN + HOSTILE, "line": 1}
    request = dict.fromkeys(("client", "host", "method", "scheme", "server", "target"), h)
    request.update(headers={h: h}, port=80)
    events = [[item if not isinstance(item, str) or at == 0 or item in ("dir", "file", "absent", "granted") else h
               for at, item in enumerate(event)] for event, _ in EVENTS]
    ask = {"do": "ask", **request}
    claim = {"kind": "guarded", "target": {"literal": h}, **line}
    decide = {"do": "decide", "claim": claim, "scope": {name: h for name in request if name != "port"}}
    decide["scope"].update(path={"pattern": h}, query={h: h}, methods=[h])
    verify = {**decide, "do": "verify", "cells": [{"at": h, "rank": 0, "slots": {h: {"pattern": h}}}]}
    bad = {"at": 2, "code": 13, "field": h, **line, "name": h}
    return [
        ({"done": "put"}, put(MAIN + h, "RewriteRule " + h)),
        ({"done": "list"}, {"do": "list", "path": h, "kind": "file"}),
        ({"outcome": {"file": {"info": h, "path": h}}}, ask),
        ({"outcome": {"redirect": {"location": h, "status": 302}}}, ask),
        ({"outcome": {"ht_refused": bad}}, ask),
        ({"outcome": {"outside": h}}, ask),
        (trail_of(events, reads=[["kind", h], [h, h]]), ask),
        (trail_of([[h], [h, [h]]]), ask),
        ({"refuted": {"outcome": {"directory": h}, "request": request}}, decide),
        ({"undecided": {"branch": [["rule", h, 1, True]]}}, decide),
        ({"rejected": {"branch": [["rule", MAIN + h, 1, True]], "cell": 0, "condition": "K2", "text": h}}, verify),
        ({"rejected": {"branch": [], "cell": 0, "condition": h, "text": h}}, verify),
        ({"accepted": True}, verify),
        ({"refused": {**bad, "name": "PatternUnsupported"}}, {"do": "check"}),
        ({"refused": {**bad, "file": "", "field": "scope"}}, decide),
        ({"refused": bad}, {"do": h, "path": h}),
        ({"done": "put"}, {"do": "ask", "target": h}),
        ({h: h}, ask),
        (h.encode("utf-8", "surrogatepass").replace(b"\n", b"") + b"\n", {"do": "end"}),
    ]


class Hostile(Case):
    """Nothing raw comes through, into a terminal or a page."""

    def test_text(self):
        for reply, command in hostile_pairs():
            for script in (None, [command]):
                with self.subTest(str(reply)[:50], with_script=script is not None):
                    text = text_of([reply], script, everything=True)
                    self.assert_safe(text)
                    out = io.StringIO()
                    hc_report.print_text(told([reply], script), out, colored=True, everything=True)
                    self.assert_safe(re.sub(r"\x1b\[[0-9;]*m", "", out.getvalue()))

    def test_all_in_one_session(self):
        pairs = hostile_pairs()
        replies, script = [reply for reply, _ in pairs], [command for _, command in pairs]
        self.assert_safe(text_of(replies, script, everything=True))
        for given in (None, script):
            page = page_of(replies, given, everything=True, title=HOSTILE, date=HOSTILE)
            found = self.assert_page(page)
            self.assertNotIn("script", found.tags)
            self.assertIn("</script>", found.text)
            self.assertEqual(page.count("<style>"), 1)

    def test_shell_lines_on_the_page(self):
        request = {**REQUEST, "headers": {"a": "<i>"}, "target": "/</pre><script>&'\""}
        page = page_of([{"refuted": {"outcome": {"status": 403}, "request": request}}])
        found = self.assert_page(page)
        self.assertIn(shlex.quote("http://h:80" + request["target"]), found.text)
        self.assertIn(json.dumps(request["target"]), found.text)

    def test_no_curl_line_of_an_odd_request(self):
        good = {**REQUEST, "headers": {"a": "b"}}
        self.assertIsNotNone(curl_line(Request(**good)))
        odd = {"client": "1.2.3.4\n", "host": "a b", "method": "GET\n", "scheme": "file", "server": "a", "port": 0,
               "target": "/a b", "headers": {"a\nb": "c"}}
        for name, value in odd.items():
            with self.subTest(name):
                self.assertIsNone(curl_line(Request(**{**good, name: value})))
        for target in ("x", "/é", "/\x7f", "/a#b", "/\n", ""):
            self.assertIsNone(curl_line(Request(**{**good, "target": target})))
        self.assertIsNone(curl_line(Request(**{**good, "headers": {"a": "\x1b"}})))
        self.assertIsNone(curl_line(Request(**{**good, "target": "/" + "a" * 100000})))


# ---- curl


class Curl(Case):
    """The shell line sends the request that it is made of."""

    ROWS = [
        {"target": "/a//b/../c?x=%20&y=[1]{2}|^\"'`$HOME;!*<>\\"},
        {"target": "/x", "method": "HEAD"},
        {"target": "/x", "method": "POST"},
        {"target": "/x", "host": "Www.Example.org"},
        {"target": "/x", "host": "1.2"},
        {"target": "/x", "host": "-a..b"},
        {"target": "/x", "headers": {"user-agent": "it's \"q\" $x `y`", "accept": "", "x-y": "@/etc/passwd"}},
    ]

    def request(self, row, port):
        given = {"method": "GET", "host": "localhost", "headers": {}, **row}
        return Request(scheme="http", server="127.0.0.1", port=port, client="10.0.0.1", **given)

    def wanted(self, request):
        lines = [f"{request.method} {request.target} HTTP/1.1", f"Host: {request.host}:{request.port}"]
        lines += [f"{name}: {value}" if value else f"{name}:" for name, value in request.headers.items()]
        return "\r\n".join(lines + ["", ""]).encode()

    def test_its_words(self):
        request = self.request({"target": "/a'b", "headers": {"x": "a b"}}, 8080)
        self.assertEqual(shlex.split(curl_line(request)), [
            "curl", "-i", "--path-as-is", "--resolve", "localhost:8080:127.0.0.1", "-X", "GET", "-H", "User-Agent:",
            "-H", "Accept:", "-H", "x: a b", "http://localhost:8080/a'b"])
        request.server = "2001:0db8:0000:0000:0000:0000:0000:0001"
        self.assertIn(f"'localhost:8080:[{request.server}]'", curl_line(request))
        request.host = ""
        self.assertIn("--http1.0 -H Host: -X GET", curl_line(request))
        self.assertIn("HTTP/1.0", "".join(map(plain, curl_notes(request))))

    @unittest.skipUnless(shutil.which("curl"), "no curl here")
    def test_what_it_sends(self):
        for row in self.ROWS:
            with self.subTest(row), socket.socket() as server:
                server.bind(("127.0.0.1", 0))
                server.listen(1)
                server.settimeout(60)
                got = []
                thread = threading.Thread(target=self.serve, args=(server, got))
                thread.start()
                request = self.request(row, server.getsockname()[1])
                shell = {**os.environ, "no_proxy": "*", "HOME": "/nonexistent"}
                subprocess.run(["sh", "-c", curl_line(request)], capture_output=True, timeout=60, env=shell, check=True)
                thread.join()
                self.assertEqual(got, [self.wanted(request)])

    @staticmethod
    def serve(server, got):
        connection, _ = server.accept()
        with connection:
            data = b""
            while b"\r\n\r\n" not in data:
                data += connection.recv(65536)
            got.append(data)
            connection.sendall(b"HTTP/1.1 200 OK\r\nContent-Length: 0\r\nConnection: close\r\n\r\n")


# ---- odd input


class OddInput(Case):
    """What isn't known is shown as it is, and ends nothing."""

    LINES = [
        b"not json\n", b"\n", b"[]\n", b"3\n", b"{}\n", b"null\n", b'"x"\n', b"{\"a\":1,\"b\":2}\n", b"\xff\xfe\n",
        b"[" * 200000 + b"\n", b'{"proved":' * 100000 + b"\n", b'{"done":NaN}\n', b"9" * 10000 + b"\n",
        b'{"too_many":' + b"9" * 5000 + b"}\n", b'{"proved":false}\n', b'{"proved":1}\n', b'{"done":"x"}\n',
        b'{"done":["put"]}\n', b'{"config":{}}\n', b'{"config":{"hosts":true}}\n', b'{"outcome":{}}\n',
        b'{"outcome":{"file":3}}\n', b'{"outcome":{"file":{"info":"","path":3}}}\n', b'{"outcome":{"status":"403"}}\n',
        b'{"outcome":{"limit":"time"}}\n', b'{"outcome":{"limit":[]}}\n', b'{"outcome":{"new":1}}\n',
        b'{"outcome":{"outside":"new"}}\n', b'{"outcome":3}\n', b'{"refused":{"code":1}}\n', b'{"refused":[]}\n',
        b'{"refuted":{"outcome":{"status":403},"request":{}}}\n', b'{"undecided":{"branch":[[]]}}\n',
        b'{"undecided":{"branch":[["if","/a",1,true]]}}\n', b'{"undecided":{"branch":[["rule","/a",1,1]]}}\n',
        b'{"rejected":{"branch":[],"cell":0,"condition":"K9","text":""}}\n', b'{"no_memory":false}\n',
        b'{"events":1,"outcome":{},"reads":[],"trail":[]}\n', b'{"events":1,"outcome":{"status":1},"trail":[]}\n',
        b'{"summary":{}}\n', b'{"stats":{"asks":"1","evaluations":1}}\n', b'{"proved":true,"x":1}\n',
    ]

    def test_each_line(self):
        for line in self.LINES:
            for script in (None, [b"not json\n"], [{"do": "ask", "target": 3, "headers": [], "port": "x"}]):
                with self.subTest(line[:40], script=script):
                    text = text_of([line], script)
                    self.assert_safe(text)
                    self.assertRegex(text, r"^\[1\] (Unknown: a reply that has no known form: |Mismatch: )")
                    self.assertRegex(text, r"\n1 question: 1 with a")
                    self.assert_page(page_of([line], script))

    def test_a_deep_trail(self):
        deep = b'{"events":1,"outcome":{"not_found":true},"reads":[],"trail":[' + b"[" * 900 + b"]" * 900 + b"]}\n"
        self.assertIn("n", text_of([deep]))

    def test_a_long_line(self):
        line = b'{"outcome":{"directory":"' + b"\\\\x1b" * 4_000_000 + b'"}}\n'
        self.assertLess(len(text_of([line])), 3000)
        self.assertLess(len(text_of([b"x" * 20_000_000])), 3000)

    def test_a_cut_line(self):
        self.assertIn("[2] Unknown", text_of([{"proved": True}, b'{"prov']))
        self.assertIn("[1] Proved", text_of([b'{"proved":true}']))

    def test_no_input(self):
        self.assertEqual(text_of([]), "0 questions.\n")
        self.assert_page(page_of([]))

    def test_a_reply_without_its_command(self):
        text = text_of([{"done": "put"}, {"outcome": {"status": 403}}, {"proved": True}], [put("/a", "x")])
        self.assertIn("[2] The request of line 2 is answered 403 (Forbidden).", text)
        self.assertIn("[2] Mismatch: The script has no line for the replies from line 2 on.", text)
        self.assert_page(page_of([{"proved": True}], []))

    def test_a_command_without_its_reply(self):
        script = [put("/a", "x"), {"do": "ask", "target": "/x"}, {"do": "check"}]
        text = text_of([{"done": "put"}], script)
        self.assertIn('[2] No reply: there is none for the lines 2 to 3 of the script: {"do": "ask", "target"', text)
        text = text_of([{"done": "put"}, {"outcome": {"status": 403}}], script)
        self.assertIn('none for line 3 of the script: {"do": "check"}', text)
        text = text_of([{"done": "end"}], [{"do": "end"}, {"do": "check"}], everything=True)
        self.assertEqual(text, "[1] The session ended.\n\n0 questions.\n")
        self.assert_page(page_of([], script))

    def test_a_reply_to_something_else(self):
        pairs = [({"proved": True}, "verify"), ({"accepted": True}, "decide"), ({"done": "put"}, "list"),
                 ({"outcome": {"status": 403}}, "check"), ({"config": {"hosts": 0}}, "ask"),
                 ({"stats": {"asks": 0, "evaluations": 0}}, "ask"), (trail_of([]), "put"), ({"done": "end"}, "main")]
        for reply, name in pairs:
            with self.subTest(name):
                text = text_of([reply], [{"do": name}])
                self.assertIn("[1] Mismatch: ", text)
                self.assertIn(f'is no reply to the line of the script, {{"do": "{name}"}}.', text)
        for reply in ({"refused": refusal(45, "BadJson")}, {"no_memory": True}):
            self.assertNotIn("Mismatch", text_of([reply], [b"not json\n"]))


# ---- the command


class CommandLine(Case):
    """tools/show as it is started."""

    def run_show(self, replies, *words_given, **env):
        """The status, the output and the errors of a run."""
        ran = subprocess.run([sys.executable, SHOW, *words_given], input=lines_of(replies), capture_output=True,
                             timeout=120, env={**os.environ, "PYTHONIOENCODING": "utf-8", **env})
        return ran.returncode, ran.stdout.decode(), ran.stderr.decode()

    def script(self, commands):
        made = tempfile.NamedTemporaryFile(suffix=".jsonl")
        self.addCleanup(made.close)
        made.write(lines_of(commands))
        made.flush()
        return made.name

    def test_statuses(self):
        calm = [{"done": "put"}, {"outcome": {"status": 403}}, {"proved": True}, {"accepted": True},
                {"config": {"hosts": 0}}, {"stats": {"asks": 0, "evaluations": 0}}, {"done": "end"}]
        findings = [{"refuted": {"outcome": {"status": 403}, "request": REQUEST}}, {"undecided": {"branch": []}},
                    {"too_many": 3}, {"rejected": {"branch": [], "cell": 0, "condition": "K1", "text": ""}},
                    {"refused": refusal(1, "UnsupportedDirective")}, {"no_memory": True},
                    {"outcome": {"limit": "rounds"}}, {"outcome": {"outside": "scheme"}},
                    {"outcome": {"ht_refused": refusal(1, "UnsupportedDirective")}}, b"new\n"]
        tally = hc_report.print_text(told(calm), io.StringIO())
        self.assertEqual(tally.status, 0)
        for finding in findings:
            with self.subTest(finding):
                self.assertEqual(hc_report.print_text(told(calm + [finding]), io.StringIO()).status, 1)
        self.assertEqual(self.run_show(calm)[0], 0)
        self.assertEqual(self.run_show(calm + findings[:1])[0], 1)
        self.assertEqual(self.run_show(calm + findings[:1], "--html")[0], 1)

    def test_wrong_words(self):
        for words_given in (["--new"], ["x"], ["--color", "blue"], ["--script"], ["--script", "/nonexistent/s"]):
            with self.subTest(words_given):
                status, out, errors = self.run_show([], *words_given)
                self.assertEqual((status, out), (2, ""))
                self.assertNotIn("Traceback", errors)

    def test_closed_streams(self):
        for redirection in ("<&-", ">&-"):
            shell = f"{shlex.quote(sys.executable)} {shlex.quote(SHOW)} {redirection}"
            ran = subprocess.run(["sh", "-c", shell], input=b"", stderr=subprocess.PIPE, timeout=120)
            self.assertEqual((ran.returncode, ran.stderr.count(b"Traceback")), (2, 0))

    def test_help(self):
        status, out, _ = self.run_show([], "--help")
        self.assertEqual(status, 0)
        self.assert_in_each(["--script FILE", "--html", "exit status", "./hc < script.jsonl"], out)

    def test_script_and_all(self):
        commands = [put("/a", "x"), {"do": "ask", "target": "/y"}]
        replies = [{"done": "put"}, {"outcome": {"not_found": True}}]
        _, out, _ = self.run_show(replies, "--script", self.script(commands))
        self.assertIn("[2] GET http://localhost/y is not found.", out)
        self.assertNotIn("[1]", out)
        self.assertIn("1 edit done.\n1 question: 1 answered.\n", out)
        _, out, _ = self.run_show(replies, "--all", "--script", self.script(commands))
        self.assertIn("[1] put of /a is done.\n", out)

    def test_colours(self):
        replies = [{"proved": True}]
        self.assertNotIn("\x1b", self.run_show(replies)[1])
        self.assertNotIn("\x1b", self.run_show(replies, "--color", "never")[1])
        self.assertIn("\x1b[1;32mProved:\x1b[0m", self.run_show(replies, "--color", "always")[1])
        self.assertIn("\x1b", self.run_show(replies, "--color=always", NO_COLOR="1")[1])

    def on_a_terminal(self, **env):
        """What a terminal gets."""
        terminal, given = pty.openpty()
        environ = {name: value for name, value in os.environ.items() if name != "NO_COLOR"}
        ran = subprocess.Popen([sys.executable, SHOW], stdin=subprocess.PIPE, stdout=given,
                               env={**environ, "TERM": "xterm", **env})
        os.close(given)
        ran.communicate(b'{"proved":true}\n', timeout=120)
        out = os.read(terminal, 65536)
        os.close(terminal)
        return out

    def test_colours_on_a_terminal(self):
        self.assertIn(b"\x1b[", self.on_a_terminal())
        self.assertNotIn(b"\x1b", self.on_a_terminal(NO_COLOR="1"))
        self.assertIn(b"\x1b[", self.on_a_terminal(NO_COLOR=""))
        self.assertNotIn(b"\x1b", self.on_a_terminal(TERM="dumb"))

    def test_streaming(self):
        buffered = {**os.environ, "PYTHONUNBUFFERED": ""}
        pipes = {"stdin": subprocess.PIPE, "stdout": subprocess.PIPE, "env": buffered}
        with subprocess.Popen([sys.executable, SHOW], **pipes) as ran:
            for number in (1, 2):
                ran.stdin.write(b'{"too_many":3}\n')
                ran.stdin.flush()
                got = b""
                while b"[%d] Too many" % number not in got:
                    self.assertTrue(select.select([ran.stdout], [], [], 60)[0], "nothing came while the writer waits")
                    got += os.read(ran.stdout.fileno(), 65536)
            rest, _ = ran.communicate(timeout=60)
            self.assertIn(b"2 questions", rest)

    def test_a_reader_that_leaves(self):
        with subprocess.Popen([sys.executable, SHOW], stdin=subprocess.PIPE, stdout=subprocess.PIPE,
                              stderr=subprocess.PIPE) as ran:
            ran.stdout.close()
            try:
                ran.stdin.write(b'{"proved":true}\n' * 20000)
                ran.stdin.close()
            except BrokenPipeError:
                pass
            self.assertEqual(ran.stderr.read(), b"")

    def test_other_encodings(self):
        status, out, _ = self.run_show([{"outcome": {"directory": "\\xc3\\xa9"}}], PYTHONIOENCODING="ascii")
        self.assertEqual(status, 0)
        self.assertIn("the directory \\xe9.", out)


class HtmlPage(Case):
    """The page of --html."""

    REPLIES = [
        {"done": "put"},
        {"proved": True},
        {"undecided": {"branch": []}},
        {"outcome": {"outside": "scheme"}},
        {"outcome": {"limit": "rounds"}},
        {"refused": refusal(1, "UnsupportedDirective", file="/a", line=1)},
        {"refuted": {"outcome": {"status": 403}, "request": REQUEST}},
        {"outcome": {"status": 403}},
    ]

    def test_findings_come_first_and_the_gravest_of_them(self):
        found = self.assert_page(page_of(self.REPLIES))
        self.assertEqual(found.ids, [f"line-{n}" for n in (6, 7, 5, 3, 4, 2, 8)])
        self.assertIn("5 findings in 7 questions, behind 1 edit of the files.", found.text)

    def test_the_summary(self):
        page = page_of(self.REPLIES)
        self.assertIn('<td class="grave">Refuted</td><td>a request breaks the claim</td>'
                      '<td><a href="#line-7">7</a></td><td class="count">1</td>', page)
        self.assertIn("<tr class=none><td>Proved</td>", page_of([]))
        self.assertIn("No finding in 0 questions.", page_of([]))

    def test_it_says_the_same_each_time(self):
        self.assertEqual(page_of(self.REPLIES), page_of(self.REPLIES))
        self.assertNotIn('class="date"', page_of(self.REPLIES))
        self.assertIn('<p class="date">today &amp; &lt;so&gt;</p>', page_of(self.REPLIES, date="today & <so>"))
        self.assertIn("<h1>A&lt;B</h1>", page_of(self.REPLIES, title="A<B"))

    def test_it_stands_alone(self):
        page = page_of(self.REPLIES)
        self.assert_in_each(["@media print", "prefers-color-scheme: dark", '<meta charset="utf-8">'], page)
        for word in ("<script", "<link", "<img", "@import", "http-equiv=\"refresh\"", "src="):
            self.assertNotIn(word, page.replace("style-src", "").replace("default-src", ""))

    def test_edits_on_request(self):
        self.assertNotIn("line-1", page_of(self.REPLIES))
        self.assertIn('id="line-1"', page_of(self.REPLIES, everything=True))


# ---- the sources


class Sources(Case):
    """The rules of the repository."""

    FILES = sorted(path for path in [*TOOLS.glob("hc_report*.py"), TOOLS / "show", pathlib.Path(__file__)])

    def test_lines(self):
        for path in self.FILES:
            long = [n for n, line in enumerate(path.read_bytes().split(b"\n"), 1) if len(line) > 120]
            self.assertEqual((path.name, long), (path.name, []))

    def test_functions(self):
        for path in self.FILES[:-1]:
            for node in ast.walk(ast.parse(path.read_text("utf-8"))):
                if isinstance(node, ast.FunctionDef):
                    self.assertLess(node.end_lineno - node.lineno, 40, f"{path.name}: {node.name}")

    def test_limits_and_kinds_have_words(self):
        self.assertEqual(sorted(LIMITS), ["redirects", "rounds"])
        self.assertTrue(all(len(row) == 4 for row in KINDS.values()))


if __name__ == "__main__":
    unittest.main()
