"""Tests of tools/pack, each on a server of its own in a temporary folder.

    python3 -m unittest discover -s tools/tests

Where the environment variable HC names the program, its replies to what is packed are looked at too.
"""

import importlib.machinery
import importlib.util
import io
import json
import os
import pty
import re
import resource
import shutil
import socket
import subprocess
import sys
import tarfile
import tempfile
import unittest

TOP = os.path.dirname(os.path.dirname(os.path.dirname(os.path.abspath(__file__))))
PACK = os.path.join(TOP, "tools", "pack")
HC = os.environ.get("HC")
MILLION = 1000000
LITTLE_MEMORY = 512 << 20


def in_little_memory():
    resource.setrlimit(resource.RLIMIT_AS, (LITTLE_MEMORY, LITTLE_MEMORY))


def load():
    """The script as a module, without a file of its byte code beside it."""
    before, sys.dont_write_bytecode = sys.dont_write_bytecode, True
    loader = importlib.machinery.SourceFileLoader("pack", PACK)
    module = importlib.util.module_from_spec(importlib.util.spec_from_loader("pack", loader))
    loader.exec_module(module)
    sys.dont_write_bytecode = before
    return module


pack = load()


class Server(unittest.TestCase):
    """A folder that stands for a server."""

    def setUp(self):
        self.top = os.path.realpath(tempfile.mkdtemp(prefix="pack-"))
        self.addCleanup(shutil.rmtree, self.top)

    def at(self, path):
        return os.path.join(self.top, path)

    def put(self, path, text=""):
        os.makedirs(os.path.dirname(self.at(path)), exist_ok=True)
        with open(self.at(path), "wb") as file:
            file.write(text if isinstance(text, bytes) else text.replace("TOP", self.top).encode())

    def folder(self, path):
        os.makedirs(self.at(path), exist_ok=True)

    def link(self, target, path):
        os.makedirs(os.path.dirname(self.at(path)), exist_ok=True)
        os.symlink(target.replace("TOP", self.top), self.at(path))

    def words(self, *words):
        """The words of a command line; those of the usual server where there are none."""
        return [word.replace("TOP", self.top) for word in words or ("--main", "TOP/conf/main", "--root", "TOP/www")]

    def run_pack(self, *words, **more):
        """Its status, its lines, and what it told, with TOP for the folder."""
        done = subprocess.run([sys.executable, PACK, *self.words(*words)], stdout=subprocess.PIPE,
                              stderr=subprocess.PIPE, timeout=120, **more)
        told = done.stderr.decode("ascii")
        self.assertNotIn("Traceback", told)
        self.assertNotRegex(told.replace("\n", ""), "[^ -~]")
        self.bytes = done.stdout
        self.assertTrue(done.stdout.isascii())
        self.assertIn(done.stdout[-1:], (b"\n", b""))
        lines = [json.loads(line) for line in done.stdout.splitlines()]
        for line, written in zip(lines, done.stdout.decode().splitlines()):
            self.assertEqual(json.dumps(line, separators=(",", ":"), sort_keys=True), written)
        self.assert_fits(lines)
        return done.returncode, lines, told.replace(self.top, "TOP")

    def assert_fits(self, lines):
        """No path is written twice, and none is below a file."""
        paths = [line["path"] for line in lines if line["do"] != "main"]
        self.assertEqual(len(paths), len(set(paths)))
        files = {line["path"] for line in lines if line["do"] == "put" or line.get("kind") == "file"}
        for path in paths:
            while path != "/":
                path = os.path.dirname(path)
                self.assertNotIn(path, files)

    def short(self, lines):
        """Each line as one text: `main P`, `put P`, `file P` or `dir P`."""
        return [(line.get("kind") or line["do"]) + " " + line["path"].replace(self.top, "TOP") for line in lines]

    def texts(self, lines):
        return {line["path"].replace(self.top, "TOP"): line["text"] for line in lines if line["do"] == "put"}

    def assert_told(self, told, *parts):
        for part in parts:
            self.assertIn(part, told)

    def ask_hc(self, *lines):
        """The replies of the program, where there is one, to what was packed last and these lines."""
        if HC:
            script = self.bytes + b"".join(json.dumps(line).encode() + b"\n" for line in lines)
            done = subprocess.run([HC], input=script, stdout=subprocess.PIPE, check=True, timeout=120)
            return [json.loads(line) for line in done.stdout.splitlines()]
        return None

    def assert_hc(self, expected, *lines):
        replies = self.ask_hc(*(lines or ({"do": "check"},)))
        if replies is not None:
            count = len(lines) or 1
            for reply in replies[:-count]:
                self.assertEqual(list(reply), ["done"])
            self.assertEqual(replies[-count:], expected)


ENVVARS = """# envvars - default environment variables for apache2ctl
unset HOME
if [ "${APACHE_CONFDIR##/etc/apache2-}" != "${APACHE_CONFDIR}" ] ; then
\tSUFFIX="-${APACHE_CONFDIR##/etc/apache2-}"
else
\tSUFFIX=
fi
export APACHE_RUN_USER=www-data
export APACHE_RUN_DIR=/var/run/apache2$SUFFIX
# Only /var/log/apache2 is handled.
export APACHE_LOG_DIR=/var/log/apache2$SUFFIX
export LANG=C
export LANG
"""

MAIN = """#ServerRoot "/etc/apache2"
DefaultRuntimeDir ${APACHE_RUN_DIR}
User ${APACHE_RUN_USER}
ErrorLog ${APACHE_LOG_DIR}/error.log
IncludeOptional mods-enabled/*.load
IncludeOptional mods-enabled/*.conf
Include ports.conf
<Directory />
\tRequire all denied
</Directory>
<Directory "TOP/var/www/">
\tOptions Indexes FollowSymLinks
\tRequire all granted
</Directory>
AccessFileName .htaccess
IncludeOptional conf-enabled/*.conf
IncludeOptional sites-enabled/*.conf
"""

SITE = """<VirtualHost *:80>
\tDocumentRoot "TOP/var/www/html"
\tCustomLog ${APACHE_LOG_DIR}/access.log combined
</VirtualHost>
"""

DEBIAN = ("--main", "TOP/etc/apache2/apache2.conf", "--envvars", "TOP/etc/apache2/envvars", "--root", "TOP/var/www")


class Debian(Server):
    """A server as Debian lays it out."""

    def setUp(self):
        super().setUp()
        etc = "etc/apache2/"
        for path, text in (("apache2.conf", MAIN), ("envvars", ENVVARS), ("ports.conf", "Listen 80\n"),
                           ("mods-available/dir.load", "LoadModule dir_module /usr/lib/mod_dir.so\n"),
                           ("mods-available/dir.conf", "DirectoryIndex index.html\n"),
                           ("mods-available/cgi.load", "LoadModule cgi_module /usr/lib/mod_cgi.so\n"),
                           ("conf-available/charset.conf", "AddDefaultCharset UTF-8\n"),
                           ("sites-available/000-default.conf", SITE), ("magic", "not configuration\n")):
            self.put(etc + path, text)
        for front, name in (("mods", "dir.load"), ("mods", "dir.conf"), ("conf", "charset.conf"),
                            ("sites", "000-default.conf")):
            self.link("../%s-available/%s" % (front, name), etc + "%s-enabled/%s" % (front, name))
        self.put("var/www/html/index.html", "<p>secret content\n")

    def test_whole(self):
        status, lines, told = self.run_pack(*DEBIAN)
        etc = "TOP/etc/apache2/"
        self.assertEqual(self.short(lines), [
            "main " + etc + "hc-main.conf", "put " + etc + "hc-main.conf", "put " + etc + "apache2.conf",
            "put " + etc + "conf-enabled/charset.conf", "put " + etc + "mods-enabled/dir.conf",
            "put " + etc + "mods-enabled/dir.load", "put " + etc + "ports.conf",
            "put " + etc + "sites-enabled/000-default.conf", "file TOP/var/www/html/index.html"])
        self.assertEqual(status, 0, told)
        self.assertEqual(lines[1]["text"].replace(self.top, "TOP"), (
            'ServerRoot "TOP/etc/apache2"\nDefine APACHE_LOG_DIR "/var/log/apache2"\n'
            'Define APACHE_RUN_DIR "/var/run/apache2"\nDefine APACHE_RUN_USER "www-data"\nDefine LANG "C"\n'
            'Include "TOP/etc/apache2/apache2.conf"\n'))
        self.assertEqual(lines[2]["text"], MAIN.replace("TOP", self.top))
        self.assertNotIn(b"secret content", self.bytes)
        self.assert_told(told, "hc-main.conf, which isn't on the server", "4 links followed", "0 not handed in",
                         "no ServerRoot is set before TOP/etc/apache2/apache2.conf:5: taken to be TOP/etc/apache2\n")
        self.assert_hc([{"config": {"hosts": 1}}, {"outcome": {"file": {
            "info": "", "path": self.at("var/www/html/index.html")}}}],
            {"do": "check"}, {"do": "ask", "target": "/index.html"})

    def test_without_envvars_there_is_a_server_root(self):
        status, lines, _ = self.run_pack("--main", "TOP/etc/apache2/apache2.conf", "--root", "TOP/var/www")
        self.assertEqual(status, 0)
        self.assertEqual(lines[1]["text"].replace(self.top, "TOP"),
                         'ServerRoot "TOP/etc/apache2"\nInclude "TOP/etc/apache2/apache2.conf"\n')

    def test_no_wrapper_without_a_need(self):
        self.put("etc/apache2/apache2.conf",
                 'ServerRoot "TOP/etc/apache2"\nInclude ports.conf\nDocumentRoot TOP/var/www\n')
        status, lines, told = self.run_pack("--main", "TOP/etc/apache2/apache2.conf", "--root", "TOP/var/www")
        self.assertEqual(self.short(lines)[0], "main TOP/etc/apache2/apache2.conf")
        self.assertEqual((status, len(lines)), (0, 4))
        self.assertNotIn("ServerRoot", told)
        self.assert_hc([{"config": {"hosts": 0}}])

    def test_a_server_root_of_its_own(self):
        """The names are taken from there, and it is a given folder."""
        self.put("usr/local/ports.conf", "Listen 81\n")
        self.put("etc/apache2/apache2.conf", "Include ports.conf\nDocumentRoot TOP/var/www\n")
        status, lines, _ = self.run_pack("--main", "TOP/etc/apache2/apache2.conf", "--root", "TOP/var/www",
                                         "--server-root", "TOP/usr/local")
        self.assertEqual(status, 0)
        self.assertEqual(self.texts(lines)["TOP/usr/local/ports.conf"], "Listen 81\n")
        self.assertNotIn("TOP/etc/apache2/ports.conf", self.texts(lines))
        self.assert_hc([{"config": {"hosts": 0}}])

    def test_the_wrapper_takes_a_free_name(self):
        self.put("etc/apache2/hc-main.conf", "Listen 1\n")
        self.put("etc/apache2/more.conf", "Include hc-main-2*\nDocumentRoot TOP/var/www\n")
        self.put("etc/apache2/apache2.conf", "Include more.conf\n")
        status, lines, _ = self.run_pack(*DEBIAN)
        self.assertEqual((status, self.short(lines)[0]), (0, "main TOP/etc/apache2/hc-main-3.conf"))
        self.put("etc/apache2/more.conf", "IncludeOptional [!am]*\nDocumentRoot TOP/var/www\n")
        status, lines, _ = self.run_pack(*DEBIAN)
        self.assertEqual(self.short(lines)[0], "main /hc-main.conf")

    def test_a_main_file_whose_name_looks_like_a_glob(self):
        for name in ("a*[b]?.conf", "a[b.conf", "a\\*b.conf", '"q" \\x\\\\.conf', "${LANG} *${X}.conf", "${LANG}"):
            with self.subTest(name):
                self.put("etc/apache2/" + name, "DocumentRoot TOP/var/www\nInclude ports.conf\n")
                status, lines, told = self.run_pack("--main", "TOP/etc/apache2/" + name, *DEBIAN[2:])
                self.assertEqual(status, 0, told)
                self.assertEqual(self.short(lines)[0], "main TOP/etc/apache2/hc-main.conf")
                self.assert_hc([{"config": {"hosts": 0}}])
                os.remove(self.at("etc/apache2/" + name))

    def test_a_second_server_of_debian(self):
        values = pack.Variables(ENVVARS.encode(), {"APACHE_CONFDIR": "/etc/apache2-two"}, None).handed_on()
        self.assertEqual(values, {b"APACHE_RUN_USER": b"www-data", b"APACHE_RUN_DIR": b"/var/run/apache2-two",
                                  b"APACHE_LOG_DIR": b"/var/log/apache2-two", b"LANG": b"C"})


class Configuration(Server):
    """Which files are followed."""

    def main(self, text, **more):
        self.put("conf/main", "ServerRoot TOP/conf\nDocumentRoot TOP/www\n" + text)
        self.folder("www")
        return self.run_pack(**more)

    def test_values_are_those_of_the_line(self):
        """A file that is included twice is followed with what was said before each."""
        self.put("conf/each", "Include TOP/conf/${site}.conf\n")
        self.put("conf/a.conf", "Define seen\n")
        self.put("conf/b.conf")
        self.put("conf/no.conf")
        status, lines, told = self.main("Define site a\nInclude each\nDefine site b\nInclude each\nInclude each\n"
                                        "<IfDefine !seen>\nInclude no.conf\n</IfDefine>\n")
        self.assertEqual(status, 0, told)
        self.assertEqual(sorted(self.texts(lines)), ["TOP/conf/" + name for name in ("a.conf", "b.conf", "each",
                                                                                     "main")])
        self.assert_hc([{"config": {"hosts": 0}}])

    def test_roots_and_modules_are_those_of_the_line(self):
        self.put("conf/each", "Include x\n")
        self.put("conf/other", "<IfModule m_module>\nInclude y\n</IfModule>\n")
        for path in ("conf/x", "conf/sub/x", "conf/sub/y"):
            self.put(path)
        status, lines, told = self.main("Include each\nServerRoot TOP/conf/sub\nInclude TOP/conf/each\n"
                                        "Include TOP/conf/other\nLoadModule m_module m.so\nInclude TOP/conf/other\n")
        self.assertEqual(status, 0, told)
        self.assertEqual([path[9:] for path in sorted(self.texts(lines))], ["each", "main", "other", "sub/x", "sub/y",
                                                                            "x"])
        self.assert_hc([{"config": {"hosts": 0}}])

    def test_dropped_bodies(self):
        for name in "abcdefg":
            self.put("conf/" + name)
        _, lines, _ = self.main(
            "<IfModule mod_alias.c>\nInclude a\n</IfModule>\n<IfModule mod_none.c>\n<Directory /x>\nInclude b\n"
            "</Directory>\nInclude b\n</IfModule>\n<ifmodule !none_module>\nInclude c\n</ifmodule>\n"
            "LoadModule none_module x\n<IfModule none_module>\nInclude d\n</IfModule>\n"
            "<IfDefine X>\nInclude e\n</IfDefine>\nDefine X\n<IfDefine X>\nInclude f\n</IfDefine>\n"
            "<VirtualHost *:80>\nInclude g\n</VirtualHost>\n")
        self.assertEqual([path[-1] for path in sorted(self.texts(lines)) if path[-2] == "/"], list("acdfg"))

    def test_forms_of_lines(self):
        for name in ("a", "b c", "d", "e", "f", "g"):
            self.put("conf/" + name)
        status, lines, told = self.main(
            "# Include no \\\nInclude no\nInclude \\\n\ta\r\nINCLUDE 'b c'\n  \tinclude\t\"d\"\nInclude e f\n"
            "Include TOP//conf///f\nInclude g")
        self.assertEqual(status, 0, told)
        self.assertEqual([path[9:] for path in sorted(self.texts(lines))], ["a", "b c", "d", "f", "g", "main"])

    def test_wildcards(self):
        for name in ("d1/a.conf", "d1/b.conf", "d2/a.conf", "d2/c.txt", "e/a.conf", "d1/.x.conf"):
            self.put("conf/" + name, "Define x\n")
        status, lines, told = self.main("Include d[0-9]/*.conf\nIncludeOptional none/*.conf\nIncludeOptional none\n")
        self.assertEqual([path[9:] for path in sorted(self.texts(lines))],
                         ["d1/.x.conf", "d1/a.conf", "d1/b.conf", "d2/a.conf", "main"])
        self.assertEqual(status, 0)
        self.assert_told(told, "TOP/conf/d1/.x.conf matches here, but not in httpd, for its dot")
        self.assert_hc([{"config": {"hosts": 0}}])

    def test_what_has_no_text_is_listed(self):
        """hc refuses each of these by name, and takes none as empty or absent."""
        self.put("conf/latin/a.conf", b"# one\n# caf\xe9\n")
        self.put("conf/long/a.conf", b"#" * (16 << 20))
        self.folder("conf/folder/a.conf")
        for name, why in (("latin", "its text is no UTF-8 (line 2)"), ("long", "over hc's 16 MiB"), ("folder", None)):
            with self.subTest(name):
                status, lines, told = self.main("IncludeOptional %s/*.conf\n" % name)
                kind = "file" if why else "dir"
                self.assertIn("%s TOP/conf/%s/a.conf" % (kind, name), self.short(lines))
                self.assertEqual(status, int(why is not None))
                self.assert_told(told, "TOP/conf/%s/a.conf" % name, why or "is a folder, which hc refuses to include")
                replies = self.ask_hc({"do": "check"})
                self.assertEqual(replies[-1]["refused"]["code"] if replies else 35, 35)

    def test_a_text_that_json_makes_too_long(self):
        self.put("conf/a.conf", "#" + "\u00e9" * (6 << 20))
        status, lines, told = self.main("Include a.conf\n")
        self.assertEqual((status, self.short(lines)[1:]), (1,
                                                           ["file TOP/conf/a.conf", "put TOP/conf/main",
                                                            "dir TOP/www"]))
        self.assert_told(told, "over hc's 16 MiB as JSON")

    def test_circles_and_depth(self):
        self.put("conf/a", "Include b\n")
        self.put("conf/b", "Include a\n")
        for n in range(1, 40):
            self.put("conf/c%d" % n, "Include c%d\n" % (n + 1))
        status, lines, told = self.main("Include main\nInclude a\nInclude c1\n")
        self.assertEqual(status, 0)
        self.assertEqual({path[9:] for path in self.texts(lines)},
                         {"a", "b", "main", *("c%d" % n for n in range(1, 34))})
        self.assert_told(told, "TOP/conf/main:3: TOP/conf/main includes itself", "TOP/conf/c33 is too deep")

    def test_includes_that_double_come_to_an_end(self):
        """Each of 40 files includes the next one twice, with another value each time."""
        for n in range(40):
            self.put("conf/%d" % n, "Define x a\nInclude %d\nDefine x b\nInclude %d\n" % (n + 1, n + 1))
        old, pack.MOST_WORK = pack.MOST_WORK, 200000
        self.addCleanup(setattr, pack, "MOST_WORK", old)
        self.put("conf/main", "Include TOP/conf/0\n")
        notes = pack.Notes(io.StringIO())
        source = pack.Files()
        source.give(os.fsencode(self.at("conf")))
        config = pack.Config(source, notes, pack.Excludes([]), os.fsencode(self.at("conf/main")), None, {})
        config.read()
        self.assertEqual(notes.status, 1)
        self.assertIn("too much to follow", notes.stream.getvalue())

    def test_includes_that_double_without_a_change_are_read_once(self):
        for n in range(31):
            self.put("conf/%d" % n, "Include %d\nInclude %d\n" % (n + 1, n + 1))
        self.put("conf/31")
        status, lines, told = self.main("Include 0\n")
        self.assertEqual((status, len(self.texts(lines))), (0, 33), told)

    def test_variables_that_double_come_to_an_end(self):
        text = "Define a 0123456789abcdef\n" + "Define a ${a}${a}\n" * 64 + "Include ${a}\nInclude b\n"
        self.put("conf/b")
        status, lines, _ = self.main(text)
        self.assertEqual(sorted(self.texts(lines)), ["TOP/conf/b", "TOP/conf/main"])

    def test_what_leads_outside(self):
        self.put("out/x.conf", "secret\n")
        self.link("TOP/out/x.conf", "conf/on/link.conf")
        self.link("TOP/out", "conf/outlink")
        for text, path in (("Include TOP/out/x.conf", "TOP/out/x.conf"), ("IncludeOptional TOP/out/*", "TOP/out"),
                           ("Include on/*.conf", "TOP/conf/on/link.conf"), ("Include outlink/*", "TOP/conf/outlink"),
                           ("Include outlink/x.conf", "TOP/conf/outlink/x.conf"),
                           ("Include TOP/conf/../out/x.conf", "TOP/conf/../out/x.conf")):
            with self.subTest(text):
                status, lines, told = self.main(text + "\n")
                self.assertEqual(status, 1)
                self.assertNotIn(b"secret", self.bytes)
                self.assert_told(told, "not handed in: %s (TOP/conf/main:3)" % path)
                if path.endswith(".conf") and ".." not in path:
                    self.assertIn("file " + path, self.short(lines))
                    replies = self.ask_hc({"do": "check"})
                    self.assertEqual(replies[-1]["refused"]["code"] if replies else 35, 35)
        status, lines, told = self.run_pack("--main", "TOP/conf/main", "--root", "TOP/www", "--also", "TOP/out")
        self.assertIn("..", told)

    def test_what_leads_into_another_given_folder(self):
        self.put("out/x.conf", "Listen 1\n")
        self.link("TOP/out/x.conf", "conf/on/link.conf")
        self.main("Include on/*.conf\n")
        status, lines, told = self.run_pack(*self.words(), "--also", "TOP/out")
        self.assertEqual((status, self.texts(lines)["TOP/conf/on/link.conf"]), (0, "Listen 1\n"), told)
        self.assertNotIn("TOP/out/x.conf", self.texts(lines))

    def test_absent_files(self):
        self.link("nothing", "conf/on/a.conf")
        status, lines, told = self.main("Include none.conf\nIncludeOptional none.conf\n")
        self.assertEqual((status, len(lines)), (0, 3))
        self.assert_told(told, "TOP/conf/main:3: TOP/conf/none.conf: nothing is there")
        status, lines, told = self.main("Include on/*.conf\n")
        self.assert_told(told, "TOP/conf/on/a.conf (TOP/conf/main:3): its link leads to nothing")
        self.assertEqual(status, 1)

    def test_folders_that_no_root_has(self):
        _, _, told = self.main('Alias /icons/ "/usr/share/icons/"\nScriptAlias /x TOP/www/x\n')
        self.assert_told(told, "TOP/conf/main:3: /usr/share/icons/ is in no --root")
        self.assertNotIn("TOP/www", told)

    def test_modules_that_are_taken_for_present(self):
        """Where modules are loaded, each that isn't is told once, by the first section that asks for it."""
        asked = ("<IfModule mod_dir.c>\n</IfModule>\n<IfModule ssl_module>\n</IfModule>\n"
                 "<ifmodule !mod_ssl.c>\n</ifmodule>\n<IfModule core.c>\n</IfModule>\n"
                 "<IfModule mod_so.c>\n</IfModule>\n<IfModule none_module>\n</IfModule>\n")
        self.put("www/a/.htaccess", "# <IfModule mod_env.c>\n<IfModule mod_dir.c>\n</IfModule>\n"
                                    '<IfModule "!mod_rewrite.c">\n</IfModule>\n')
        self.put("www/b/.htaccess", "<IfModule mod_rewrite.c>\n</IfModule>\n")
        _, _, told = self.main(asked)
        self.assertNotIn("LoadModule", told)
        status, _, told = self.main(asked + "LoadModule dir_module m.so\n" + asked)
        self.assertEqual(re.findall("pack: (.*): no LoadModule names (.*), and hc takes it for present", told),
                         [("TOP/conf/main:18", "ssl_module"), ("TOP/www/a/.htaccess:4", "rewrite_module")])
        self.assertEqual(status, 0, told)
        _, _, told = self.main("LoadModule dir_module m.so\nLoadModule rewrite_module m.so\n")
        self.assertNotIn("takes it for present", told)

    def test_the_modules_are_those_of_the_definition(self):
        with open(os.path.join(TOP, "crates/hc_says/specs/Says.antt"), encoding="utf-8") as file:
            part = file.read().split("standard_modules =")[1].split("abbrev")[0]
        self.assertEqual(" ".join(re.findall('"([^"]*)"', part)).split(), pack.STANDARD_MODULES.split())


class Texts(unittest.TestCase):
    """Lines, words, variables and globs, as docs/RULES.md says."""

    def test_words(self):
        for text, words in ((b" a  b\t", [b"a", b"b"]), (b"'a b'c", [b"a b", b"c"]),
                            (b'"a\\"b\\\\c\\d"', [b'a"b\\c\\d']),
                            (b"a\"b 'c\\\\d'", [b'a"b', b"c\\d"]), (b"a\\\\b\\c", [b"a\\b\\c"]), (b'x "a', None),
                            (b'"a\\"', None), (b"", []), (b'""', [b""]), (b"'\\\\'x", [b"\\", b"x"])):
            self.assertEqual(pack.words_of(text), words, text)

    def test_lines(self):
        for text, lines in ((b"a\n\n#c\\\nd\n b \r\n", [(1, b"a"), (5, b"b")]), (b"a\\\n b\\\nc", [(1, b"a bc")]),
                            (b"a\\\r\nb", [(1, b"a\\"), (2, b"b")]), (b"a\\\n", [(1, b"a\\")]), (b"a\\", [(1, b"a\\")]),
                            (b"x\n\\\n\\\n y", [(1, b"x"), (2, b"y")]), (b"a\0\nb\t\n", [(2, b"b")])):
            self.assertEqual(list(pack.logical_lines(text)), lines, text)

    def test_variables(self):
        values = {b"a": b"1", b"x${a": b"2", b"": b"3", b"b": b"${a}"}
        for text, made in ((b"${a}${b}$a}", b"1${a}$a}"), (b"${x${a}", b"2"), (b"${a:b}${a}", b"${a:b}1"),
                           (b"${}", b"3"),
                           (b"${no}${a", b"${no}${a"), (b"${no${a}", b"${no${a}")):
            self.assertEqual(pack.with_values(text, values), made, text)
        self.assertIsNone(pack.with_values(b"${a}" * 9, {b"a": b"x" * 200000}))
        self.assertEqual(len(pack.with_values(b"${" * 500000, {})), 1000000)

    def test_globs(self):
        for glob, takes, leaves in ((b"*.conf", [b".conf", b"a.conf", b"a.conf.conf"], [b"a.confx", b"conf"]),
                                    (b"a?c", [b"abc", b"a?c"], [b"ac", b"abbc"]),
                                    (b"[a-c]x", [b"ax", b"cx"], [b"dx", b"-x"]),
                                    (b"[!a-c]x", [b"dx", b"^x"], [b"ax"]), (b"[^]]x", [b"ax"], [b"]x"]),
                                    (b"[]a]x", [b"]x", b"ax"], [b"bx"]), (b"[a-]x", [b"ax", b"-x"], [b"bx"]),
                                    (b"[\\]a]x", [b"]x", b"ax"], [b"\\x"]), (b"\\*?", [b"*a"], [b"ba", b"\\*a"]),
                                    (b"[?[b", [b"[a[b"], [b"?[b", b"[a]b"]),
                                    (b"**a*b*", [b"ab", b"xaybz"], [b"ba", b"xa"]),
                                    (b"\\[?\\", [b"[a\\"], [b"[a"]), (b"[\\a-\\c]", [b"b"], [b"-", b"\\"])):
            pieces = pack.glob_of(glob)
            for name in takes:
                self.assertTrue(pack.glob_takes(pieces, name), (glob, name))
            for name in leaves:
                self.assertFalse(pack.glob_takes(pieces, name), (glob, name))
        for plain in (b"a", b"[a", b"\\*", b"a\\?[", b"[]", b"[!]", b"", b"\\"):
            self.assertIsNone(pack.glob_of(plain), plain)
        self.assertFalse(pack.glob_takes(pack.glob_of(b"*a" * 100 + b"b"), b"a" * 255))
        self.assertIsNone(pack.glob_of(b"[" * 100000))


class Envvars(unittest.TestCase):
    """What is read of a file of assignments."""

    def read(self, text, **values):
        told = []
        found = pack.Variables(text.encode(), values, lambda *what: told.append(what)).handed_on()
        return {name.decode(): value.decode() for name, value in found.items()}, told

    def test_values(self):
        for text, value in (("a", "a"), ("'a  $X'", "a  $X"), ('"a $X \\$X \\\\ \\n \'q\'"', "a 1 $X \\ \\n 'q'"),
                            ("$X${X}$Y-", "11-"), ("a\\ b", "a b"), ("${Y:-d$X}", "d1"), ("${E-d}${E:-e}", "e"),
                            ("${X:+p}", "p"),
                            ("${Y:=n}$Y", "nn"), ("${P##/a/}", "b/c"), ("${N:-${M:-$X}}", "1"), ("${P%/c}", "/a/b"),
                            ("a#b", "a#b"),
                            ("a # b", "a"),
                            ("", ""), ("a;", "a"), ("$", "$"), ("x$/y", "x$/y"), ("a\\\nb", "ab"), ('"a\\\nb"', "ab"),
                            ("a\r", "a\r"), ("'a'\"b\"c", "abc"), ("${P#x}", "/a/b/c")):
            found, told = self.read("X=1\nE=\nP=/a/b/c\nexport V=%s\n" % text)
            self.assertEqual((found["V"], told), (value, []), text)

    def test_what_is_not_read(self):
        for text in ("`x`", "$(x)", "$$", "$1", "~/x", "a & b", '"${A:-"b"}"', "${A:?x}", "${#A}", "a > b",
                     "${A##*/}", "'a",
                     "${A:-${B:-${C}}}", "b (c)"):
            found, told = self.read("export W=1 V=old\nexport V=%s\n" % text)
            self.assertEqual([(number, missed) for number, _, missed in told][:1], [(2, True)], text)
            self.assertEqual(found["W"], "1")
            self.assertNotIn(found.get("V"), ("1",), text)

    def test_which_are_handed_on(self):
        self.assertEqual(self.read("A=1\nB='2 3'\n")[0], {"A": "1", "B": "2 3"})
        self.assertEqual(self.read("A=1\nB=2; export B C=$A D\nexport D=4\nunset C\n")[0], {"B": "2", "D": "4"})
        self.assertEqual(self.read(": ${CONF:=/etc/a} ${X:=b}\n", CONF="/c"), ({"X": "b"}, []))
        self.assertEqual(self.read("A=1\nA=$A:2\nexport A=0:$A B=${A}x\n")[0], {"A": "0:1:2", "B": "1:2x"})

    def test_tests(self):
        text = "if %s; then\nV=1\nelif test -z \"$N\"; then V=2; if [ a = a ]; then W=3; fi\nelse\nV=4\nfi\n"
        self.assertEqual(self.read(text % "[ x != x ]"), ({"V": "2", "W": "3"}, []))
        self.assertEqual(self.read("N=1\n" + text % "[ -n '' ]"), ({"N": "1", "V": "4"}, []))
        self.assertEqual(self.read(text % 'test "$N" = ""'), ({"V": "1"}, []))
        self.assertEqual(self.read(text % "[ -f /x ]"), ({}, [(1, "if", True)]))

    def test_values_that_grow(self):
        found, told = self.read("A=0123456789abcdef\n" + "A=$A$A\n" * 40 + "B=1\n")
        self.assertLess(len(found.get("A", "")), 1 << 20)
        self.assertTrue(told)

    def test_other_commands(self):
        found, told = self.read("ulimit -n 8192\n. /etc/default/locale\ncase a in\na) A=1 ;;\nesac\nf() {\nB=2\n}\n"
                                "for x in a; do\nC=1\nif true; then D=1; fi\ndone\nX=2 cmd\nZ=9\n")
        self.assertEqual(found, {"Z": "9"})
        self.assertEqual(told, [(1, "ulimit", False), (2, ".", True), (3, "case", True), (6, "f", True),
                                (9, "for", True),
                                (13, "X=2", True)])


class Envfiles(Server):
    def test_what_hc_cannot_have(self):
        self.put("conf/main", "DocumentRoot TOP/www\n")
        self.folder("www")
        self.put("conf/env", b"A='x${B}'\nC='\xff'\nD='e\nf'\nG='a\"b\\c '\nH=\nI=$(x)\nulimit -n 1\n")
        status, lines, told = self.run_pack(*self.words(), "--envvars", "TOP/conf/env")
        self.assertEqual(status, 1)
        self.assertEqual(lines[1]["text"].replace(self.top, "TOP"),
                         'Define G "a\\"b\\\\c "\nDefine H ""\nInclude "TOP/conf/main"\n')
        self.assert_told(told, "the variable A", "the variable C", "the variable D", "`I` (TOP/conf/env:7)",
                         "passed over: `ulimit` (TOP/conf/env:8)")
        self.assert_hc([{"config": {"hosts": 0}}])

    def test_a_file_outside(self):
        self.put("conf/main", "DocumentRoot TOP/www\n")
        self.folder("www")
        self.put("env", "A=1\n")
        status, lines, told = self.run_pack(*self.words(), "--envvars", "TOP/env")
        self.assertEqual((status, lines), (2, []))
        self.assert_told(told, "TOP/env can't be read: it is outside the given folders")


class Roots(Server):
    """What is below the document roots."""

    def setUp(self):
        super().setUp()
        self.put("conf/main", "DocumentRoot TOP/www\n")

    def test_a_tree(self):
        for path in ("b/.htaccess", "a/.htaccess", "a/sub/x.html", "a.txt", "a/.htpasswd", "a-b/y",
                     "b/\u00e9 \u20ac\U0001f600"):
            self.put("www/" + path, "Require all denied\n")
        self.folder("www/empty/deep")
        self.folder("www/.htaccess")
        self.link("../a/.htaccess", "www/c/.htaccess")
        self.link("../a/.htaccess", "www/c/copy")
        self.link("a/sub", "www/linked")
        status, lines, told = self.run_pack()
        self.assertEqual(self.short(lines), [
            "main TOP/conf/main", "put TOP/conf/main", "dir TOP/www/.htaccess", "put TOP/www/a/.htaccess",
            "file TOP/www/a/.htpasswd", "file TOP/www/a/sub/x.html", "file TOP/www/a-b/y", "file TOP/www/a.txt",
            "put TOP/www/b/.htaccess", "file TOP/www/b/\u00e9 \u20ac\U0001f600", "put TOP/www/c/.htaccess",
            "file TOP/www/c/copy",
            "dir TOP/www/empty/deep", "file TOP/www/linked/x.html"])
        self.assertEqual(status, 0)
        self.assert_told(told, "3 links followed", "link followed: TOP/www/linked is TOP/www/a/sub\n")
        self.assert_hc([{"config": {"hosts": 0}}, {"done": "drop"}], {"do": "check"},
                       {"do": "drop", "path": self.at("www/b/\u00e9 \u20ac\U0001f600")})

    def test_names_are_sorted_by_bytes_and_runs_are_alike(self):
        names = ["a", "B", "a.b", "a-b", "a0", "\u00e9", "Z", "~", "\U0001f600", "\uffee"]
        for name in names:
            self.put("www/%s/x" % name)
        _, lines, _ = self.run_pack()
        first = self.bytes
        self.assertEqual([line["path"].split("/")[-2] for line in lines[2:]],
                         [name.decode() for name in sorted(name.encode() for name in names)])
        self.run_pack()
        self.assertEqual(self.bytes, first)

    def test_roots_within_each_other(self):
        self.put("www/a/b/x")
        self.put("www/y")
        self.put("conf/sub/z")
        status, lines, _ = self.run_pack(*self.words(), "--root", "TOP/www/a", "--root", "TOP", "--root",
                                         "TOP/www/a/b/",
                                         "--root", "TOP/www", "--also", "TOP/conf")
        self.assertEqual(self.short(lines), ["main TOP/conf/main", "put TOP/conf/main", "file TOP/conf/sub/z",
                                             "file TOP/www/a/b/x", "file TOP/www/y"])
        self.assertEqual(status, 0)

    def test_configuration_below_a_root(self):
        self.put("conf/main",
                 "ServerRoot TOP/conf\nDocumentRoot TOP/www\nInclude TOP/www/conf.d\n"
                              "Include TOP/www/*.conf\nInclude TOP/www/only/*\nRewriteMap m txt:TOP/www/m.txt\n")
        for path in ("www/a.conf", "www/b.conf", "www/m.txt", "www/n.txt", "www/only/o.conf"):
            self.put(path, "Listen 1\n")
        self.folder("www/conf.d")
        status, lines, _ = self.run_pack()
        self.assertEqual((status, self.short(lines)[1:]), (0, [
            "put TOP/conf/main", "put TOP/www/a.conf", "put TOP/www/b.conf", "dir TOP/www/conf.d", "put TOP/www/m.txt",
            "put TOP/www/only/o.conf",
            "file TOP/www/n.txt"]))

    def test_a_root_that_is_a_link(self):
        self.put("srv/site/x")
        self.link("../srv/site", "links/www")
        self.link("links", "short")
        status, lines, told = self.run_pack(*self.words("--main", "TOP/conf/main", "--root", "TOP/short/www"))
        self.assertEqual((status, self.short(lines)[2:]), (0, ["file TOP/short/www/x"]), told)

    def test_relative_words(self):
        self.put("www/x")
        status, lines, _ = self.run_pack("--main", "main", "--root", "../www/.", cwd=self.at("conf"))
        self.assertEqual((status, self.short(lines)), (0, ["main TOP/conf/main", "put TOP/conf/main",
                                                           "file TOP/www/x"]))

    def test_excluded(self):
        for path in ("a/.git/config", "a/x.php", "node_modules/y", "b/cache/z", "b/caches", "b/.htaccess", "c/cache/q"):
            self.put("www/" + path)
        self.put("conf/main",
                 "ServerRoot TOP/conf\nDocumentRoot TOP/www\nIncludeOptional on/*\nIncludeOptional off/a\n")
        self.put("conf/on/a")
        self.put("conf/on/b~")
        self.put("conf/off/a")
        status, lines, told = self.run_pack(*self.words(), "--exclude", ".git", "--exclude", "*/b/cache", "--exclude",
                                            "*~",
                                            "--exclude", "node_*", "--exclude", "TOP/conf/off")
        self.assertEqual((status, self.short(lines)[1:]), (0, [
            "put TOP/conf/main", "put TOP/conf/on/a", "file TOP/www/a/x.php", "put TOP/www/b/.htaccess",
            "file TOP/www/b/caches",
            "file TOP/www/c/cache/q"]))
        self.assert_told(told, "5 excluded")

    def test_maps(self):
        self.put("maps/a.txt", "k v\n")
        self.put("maps/latin.txt", b"k \xe9\n")
        self.put("out.txt", "secret\n")
        self.folder("maps/folder")
        self.put("conf/main", """Define where TOP/maps
DocumentRoot TOP/www
RewriteMap a TXT:${where}/a.txt
<VirtualHost *:80>
RewriteMap a 'txt:TOP/maps/a.txt'
RewriteMap b txt:TOP/out.txt
RewriteMap c txt:TOP/maps/none.txt
RewriteMap d txt:TOP/maps/folder
RewriteMap e int:toupper
RewriteMap f txt:TOP/maps/../maps/a.txt
RewriteMap g txt:TOP/maps/latin.txt
</VirtualHost>
""")
        self.folder("www")
        status, lines, told = self.run_pack(*self.words(), "--also", "TOP/maps")
        self.assertEqual(self.short(lines)[1:], ["put TOP/conf/main", "put TOP/maps/a.txt", "file TOP/maps/latin.txt",
                                                 "dir TOP/www"])
        self.assertEqual(self.texts(lines)["TOP/maps/a.txt"], "k v\n")
        self.assertEqual(status, 1)
        self.assert_told(told, "not handed in: TOP/out.txt (TOP/conf/main:6): it is outside the given folders",
                         "TOP/conf/main:7: TOP/maps/none.txt: nothing is there",
                         "TOP/maps/folder (TOP/conf/main:8): it is a folder",
                         "TOP/maps/../maps/a.txt (TOP/conf/main:10): hc finds no map",
                         "latin.txt: its text is no UTF-8 (line 1)")
        self.assertNotIn(b"secret", self.bytes)
        self.assert_hc([{"config": {"hosts": 1}}])

    def test_many_files(self):
        self.folder("www/many")
        for n in range(20000):
            os.close(os.open(self.at("www/many/%d" % (n * 7919 % 20000)), os.O_CREAT | os.O_WRONLY))
        status, lines, told = self.run_pack()
        self.assertEqual(len(lines), 20002)
        self.assertEqual([line["path"].rpartition("/")[2] for line in lines[2:]], sorted(map(str, range(20000))))
        self.assert_told(told, "1 text and 20000 names handed in, 0 links followed")
        self.assertEqual(status, 0)
        self.assert_hc([{"config": {"hosts": 0}}])

    def test_a_million_files(self):
        """In one folder, in bounded time and memory."""
        self.folder("www/many")
        folder = os.open(self.at("www/many"), os.O_RDONLY)
        for n in range(MILLION):
            os.mknod("%d" % n, 0o600, dir_fd=folder)
        os.close(folder)
        with open(self.at("lines"), "wb") as lines:
            done = subprocess.run([sys.executable, PACK, *self.words()], stdout=lines, stderr=subprocess.PIPE,
                                  timeout=120, preexec_fn=in_little_memory)
        self.assertEqual(done.returncode, 0, done.stderr)
        with open(self.at("lines"), "rb") as lines:
            self.assertEqual(sum(1 for _ in lines), MILLION + 2)

    def test_many_links(self):
        self.put("www/x")
        for n in range(3000):
            self.link("../x", "www/links/%04d" % n)
        status, lines, told = self.run_pack()
        self.assertEqual((status, len(lines)), (0, 3003))
        self.assertEqual(told.count("link followed: "), 3)
        self.assert_told(told, "links below the roots: 2997 more like these", "3000 links followed")

    def test_progress_is_shown_on_a_terminal_alone(self):
        for n in range(2500):
            self.put("www/%d" % n)
        _, _, told = self.run_pack()
        self.assertNotIn("\r", told)
        here, there = pty.openpty()
        done = subprocess.Popen([sys.executable, PACK, *self.words()], stdout=subprocess.DEVNULL, stderr=there)
        os.close(there)
        shown = b""
        while True:
            try:
                part = os.read(here, 4096)
            except OSError:
                break
            if not part:
                break
            shown += part
        os.close(here)
        self.assertEqual(done.wait(), 0)
        blank = b"\r                \r"
        self.assertIn(b"\rpack: 1000 names" + blank + b"\rpack: 2000 names" + blank + b"pack: 1 text and", shown)


class Hostile(Server):
    """Files that were made to mislead."""

    def setUp(self):
        super().setUp()
        self.put("conf/main", "DocumentRoot TOP/www\n")
        self.folder("www")
        self.put("out/secret/.htaccess", "secret\n")

    def test_links_in_circles(self):
        self.put("www/a/b/x")
        self.link("..", "www/a/b/up")
        self.link("TOP/www", "www/a/top")
        self.link(".", "www/a/self")
        self.link("one", "www/two")
        self.link("two", "www/one")
        self.link("../q", "www/p/q")
        self.link("../p", "www/q/p")
        status, lines, told = self.run_pack()
        self.assertEqual(self.short(lines)[2:], [
            "dir TOP/www/a/b/up", "file TOP/www/a/b/x", "dir TOP/www/a/self", "dir TOP/www/a/top", "dir TOP/www/p/q/p",
            "dir TOP/www/q/p/q"])
        self.assertEqual(status, 1)
        self.assert_told(told, "TOP/www/a/b/up: it leads back to a folder around it, and isn't entered again",
                         "TOP/www/one: its links lead in circles")

    def test_links_outside(self):
        self.link("TOP/out/secret", "www/a")
        self.link("../../out/secret/.htaccess", "www/b/.htaccess")
        self.link("/etc/passwd", "www/c")
        self.link("nowhere", "www/d")
        self.link("nowhere", "www/.htaccess")
        self.link("TOP/conf", "www/e")
        self.link("../www/../out", "www/f")
        status, lines, told = self.run_pack()
        self.assertEqual(self.short(lines)[2:], ["file TOP/www/b/.htaccess", "file TOP/www/e/main"])
        self.assertEqual(status, 1)
        self.assertNotIn(b"secret", self.bytes)
        self.assert_told(told, "TOP/www/a: it is outside the given folders, at TOP/out/secret (--also names more)\n",
                         "TOP/www/b/.htaccess: it is outside",
                         "TOP/www/c: it is outside the given folders, at /etc/passwd", "TOP/www/f: it is outside",
                         "TOP/www/d: its link leads to nothing", "6 not handed in")

    def test_links_that_double(self):
        """Folders that each lead twice to the next one: the ways to the last are too many links long for Linux, too."""
        for n in range(50):
            self.folder("www/%d" % n)
            self.link("../%d" % (n + 1), "www/%d/a" % n)
        self.put("www/50/x")
        status, lines, told = self.run_pack()
        self.assertEqual(status, 1)
        self.assert_told(told, "over 40 links lead to it")

    def test_names(self):
        top = os.fsencode(self.at("www/"))
        for name in (b"new\nline", b"\x1b[2Jesc", b"tab\t", b"del\x7f", b"latin\xe9", b"\xed\xa0\x80",
                     b"bidi\xe2\x80\xae", b"\\q\"'"):
            os.mkdir(top + name)
            os.close(os.open(top + name + b"/x", os.O_CREAT))
        status, lines, told = self.run_pack()
        self.assertEqual(self.short(lines)[2:], ["file TOP/www/\\q\"'/x", "file TOP/www/bidi\u202e/x"])
        self.assertEqual(status, 1)
        self.assert_told(told, "new\\x0Aline: its name has a control byte", "\\x1B[2Jesc: its name has",
                         "tab\\x09: its name has",
                         "latin\\xE9: its name is no UTF-8", "\\xED\\xA0\\x80: its name is no UTF-8", "6 not handed in")
        self.assert_hc([{"config": {"hosts": 0}}])

    def test_a_main_file_with_an_odd_name(self):
        for name in (b"new\nline", b"\xff"):
            os.rename(os.fsencode(self.at("conf/main")), os.fsencode(self.at("conf/")) + name)
            status, lines, told = self.run_pack("--main", "TOP/conf/" + os.fsdecode(name), "--root", "TOP/www")
            self.assertEqual((status, lines), (2, []))
            os.rename(os.fsencode(self.at("conf/")) + name, os.fsencode(self.at("conf/main")))

    def test_what_is_no_file(self):
        os.mkfifo(self.at("www/.htaccess"))
        os.mkfifo(self.at("www/pipe"))
        here = os.getcwd()
        os.chdir(self.at("www"))
        self.addCleanup(os.chdir, here)
        with socket.socket(socket.AF_UNIX) as made:
            made.bind("sock")
        self.link("pipe", "www/to-pipe")
        self.put("conf/main", "DocumentRoot TOP/www\nIncludeOptional TOP/www/pi*\nRewriteMap m txt:TOP/www/pipe\n")
        status, lines, told = self.run_pack()
        self.assertEqual(self.short(lines)[2:], ["file TOP/www/pipe", "file TOP/www/.htaccess"])
        self.assertEqual(status, 1)
        self.assert_told(told, "TOP/www/.htaccess: it is a fifo", "TOP/www/pipe (TOP/conf/main:2): it is a fifo",
                         "TOP/www/sock: it is a socket", "TOP/www/to-pipe: it is a fifo")

    def test_devices(self):
        try:
            os.mknod(self.at("www/null"), 0o20666, os.makedev(1, 3))
        except PermissionError:
            self.skipTest("no device can be made here")
        status, _, told = self.run_pack()
        self.assertEqual(status, 1)
        self.assert_told(told, "TOP/www/null: it is a device")

    @unittest.skipIf(os.geteuid() == 0, "root reads everything")
    def test_what_may_not_be_read(self):
        for path in ("www/a/x", "www/b/.htaccess", "www/c/x", "www/d/y", "conf/on/x"):
            self.put(path, "secret\n")
        self.put("conf/main", "DocumentRoot TOP/www\nInclude TOP/conf/on/*\nIncludeOptional TOP/www/d/y/z\n")
        for path, mode in (("www/a", 0), ("www/b/.htaccess", 0), ("www/c", 0o100), ("www/d", 0o400), ("conf/on/x", 0)):
            os.chmod(self.at(path), mode)
            self.addCleanup(os.chmod, self.at(path), 0o700)
        status, lines, told = self.run_pack()
        self.assertEqual(status, 1)
        self.assertEqual(self.short(lines)[2:], ["file TOP/conf/on/x", "file TOP/www/d/y/z", "dir TOP/www/a",
                                                 "file TOP/www/b/.htaccess", "dir TOP/www/c"])
        self.assertNotIn(b"secret", self.bytes)
        self.assert_told(told, "TOP/www/a: it may not be read", "TOP/www/b/.htaccess: it may not be read")

    def test_a_deep_tree(self):
        """Paths over 4,096 bytes are named, and deep ones need no stack."""
        here = os.getcwd()
        self.addCleanup(subprocess.run, ["rm", "-rf", self.at("www")], check=True)
        self.addCleanup(os.chdir, here)
        os.chdir(self.at("www"))
        for _ in range(2100):
            os.mkdir("d")
            os.chdir("d")
        os.chdir(here)
        status, lines, told = self.run_pack()
        self.assertEqual((status, len(lines)), (1, 3))
        self.assertIn(len(lines[2]["path"]), range(4092, 4097))
        self.assertRegex(told, "its path has over 4,096 bytes|File name too long")
        self.assert_hc([{"config": {"hosts": 0}}])

    def opened_files(self, words):
        """The real paths of all that is opened in a run in this process."""
        opened, before = [], os.open

        def noted(*args, **more):
            handle = before(*args, **more)
            opened.append(os.readlink("/proc/self/fd/%d" % handle))
            return handle

        out = io.BytesIO()
        os.open = noted
        try:
            pack.pack(pack.parser().parse_args(self.words(*words)), out, pack.Notes(io.StringIO()))
        finally:
            os.open = before
        return opened, out.getvalue()

    @unittest.skipUnless(os.path.exists("/proc/self/fd"), "nothing tells what is opened")
    def test_nothing_outside_is_opened(self):
        self.put("conf/main", """ServerRoot TOP/conf
Include ../out/*
Include TOP/*/secret/.htaccess
Include out/secret/*
IncludeOptional TOP/out/secret/.htaccess
RewriteMap m txt:TOP/out/secret/.htaccess
RewriteMap n txt:TOP/conf/out/secret/.htaccess
DocumentRoot TOP/www
Include TOP/www/o/*
""")
        self.link("TOP/out", "conf/out")
        self.link("../../out/secret/.htaccess", "www/a/.htaccess")
        self.link("../../out/secret", "www/a/b")
        self.link("../out", "www/o")
        self.put("www/x/.htaccess")
        opened, made = self.opened_files(("--main", "TOP/conf/main", "--root", "TOP/www"))
        self.assertNotIn(b"secret\\n", made)
        self.assertIn(self.at("www/x/.htaccess"), opened)
        for path in opened:
            self.assertTrue(path.startswith((self.at("conf"), self.at("www"))), path)

    def test_what_becomes_a_link_meanwhile(self):
        self.put("www/a/b/.htaccess", "inside\n")
        source = pack.Files()
        source.give(os.fsencode(self.at("www")))
        file, folder = (source.resolve(os.fsencode(self.at(path))) for path in ("www/a/b/.htaccess", "www/a"))
        self.assertEqual(source.text(file), b"inside\n")
        shutil.rmtree(self.at("www/a/b"))
        self.link("TOP/out/secret", "www/a/b")
        for call in (lambda: source.text(file), lambda: source.names(os.path.dirname(file))):
            self.assertRaises(pack.Unread, call)
        shutil.rmtree(self.at("www/a"))
        self.link("TOP/out", "www/a")
        self.assertRaises(pack.Unread, source.names, folder)
        os.remove(self.at("www/a"))
        self.folder("www/a/b")
        self.link("TOP/out/secret/.htaccess", "www/a/b/.htaccess")
        self.assertRaises(pack.Unread, source.text, file)

    def test_a_script_that_is_full(self):
        for n in range(100):
            self.put("www/%03d" % n)
        old, pack.LONGEST_SCRIPT = pack.LONGEST_SCRIPT, 3000
        self.addCleanup(setattr, pack, "LONGEST_SCRIPT", old)
        notes, out = pack.Notes(io.StringIO()), io.BytesIO()
        pack.pack(pack.parser().parse_args(self.words()), out, notes)
        self.assertEqual(notes.status, 1)
        self.assertLessEqual(len(out.getvalue()), 3000)
        self.assertTrue(out.getvalue().endswith(b"}\n"))
        self.assertIn("hc reads no more than 1 GiB", notes.stream.getvalue())


class Words(Server):
    """Exit status 2: nothing is written."""

    def test_status_2(self):
        self.put("conf/main", "Listen 1\n")
        self.put("conf/latin", b"\xe9")
        self.put("out/main")
        self.link("TOP/out/main", "conf/link")
        self.folder("www")
        for words, why in ((("--main", "TOP/conf/none", "--root", "TOP/www"),
                            "TOP/conf/none can't be read: nothing is there"),
                           (("--main", "TOP/none/main", "--root", "TOP/www"), "TOP/none: nothing is there"),
                           (("--main", "TOP/conf/latin", "--root", "TOP/www"), "no UTF-8"),
                           (("--main", "TOP/conf/link", "--root", "TOP/www"), "outside the given folders"),
                           (("--main", "TOP/conf", "--root", "TOP/www"), "TOP/conf can't be read: it is a folder"),
                           (("--main", "TOP/conf/main", "--root", "TOP/none"), "TOP/none: nothing is there"),
                           (("--main", "TOP/conf/main", "--root", "TOP/conf/main"), "TOP/conf/main: it is no folder"),
                           (("--main", "TOP/conf/main", "--root", "TOP/www", "--also", "TOP/x"), "TOP/x: nothing"),
                           (("--main", "TOP/conf/main"), "--root"), (("--root", "TOP/www"), "--main"),
                           (("--main", "TOP/conf/main", "--root", "TOP/www", "--frm"), "--frm"),
                           (("--main", "TOP/conf/main", "--root", "TOP/www", "--from", "TOP/none"),
                            "TOP/none can't be read"),
                           (("--main", "/../main", "--root", "/www", "--from", "TOP/conf/main"), "has no `..`"),
                           (("--main", "/main", "--root", "/www", "--from", "TOP/conf/main"), "archive can't be read")):
            with self.subTest(words):
                status, lines, told = self.run_pack(*words)
                self.assertEqual((status, lines), (2, []), told)
                self.assert_told(told, why)

    def test_an_output_that_is_closed_or_full(self):
        self.put("conf/main", "DocumentRoot TOP/www\n")
        for n in range(2000):
            self.put("www/%0200d" % n)
        with open("/dev/full", "wb") as full:
            done = subprocess.run([sys.executable, PACK, *self.words()], stdout=full, stderr=subprocess.PIPE,
                                  timeout=60)
        self.assertEqual(done.returncode, 2)
        self.assertIn(b"the lines can't be written: No space left", done.stderr)
        self.assertNotIn(b"Traceback", done.stderr)
        here, there = os.pipe()
        os.close(here)
        done = subprocess.run([sys.executable, PACK, *self.words()], stdout=there, stderr=subprocess.PIPE, timeout=60)
        os.close(there)
        self.assertEqual(done.returncode, 2)
        self.assertNotIn(b"Traceback", done.stderr)

    def test_help(self):
        done = subprocess.run([sys.executable, PACK, "--help"], stdout=subprocess.PIPE, timeout=60)
        self.assertEqual(done.returncode, 0)
        self.assertIn(b"counts as absent", done.stdout)


class Tar(Server):
    """An archive in place of the file system."""

    def archive(self, *members, form="w"):
        """An archive of members: a name, and a text, a link (`-> x`), a hard link (`=> x`), None for a folder, or a
        type."""
        path = self.at("made.tar")
        with tarfile.open(path, form) as tar:
            for name, what in members:
                member = tarfile.TarInfo(name)
                if what is None:
                    member.type = tarfile.DIRTYPE
                elif isinstance(what, bytes):
                    member.type = what
                elif what[:3] in ("-> ", "=> "):
                    member.type = tarfile.SYMTYPE if what[0] == "-" else tarfile.LNKTYPE
                    member.linkname = what[3:]
                else:
                    member.size = len(what.encode())
                tar.addfile(member, io.BytesIO(what.encode()) if member.isreg() else None)
        return path

    def run_archive(self, *members, words=(), **more):
        path = self.archive(*members, **more)
        return self.run_pack("--from", path, "--main", "/conf/main", "--root", "/www", *words)

    MAIN = ("conf/main", "DocumentRoot /www\n")

    def test_the_same_as_from_the_file_system(self):
        main = """ServerRoot TOP/conf
DocumentRoot TOP/www
Include on/*.conf
Include TOP/www/i
RewriteMap m txt:TOP/www/map
Include ${V}/none
Include TOP/etc/x
"""
        for path, text in (("conf/main", main), ("conf/env", "export V=TOP/x\n"), ("conf/off/b.conf", "Listen 2\n"),
                           ("conf/off/a.conf", "Listen 1\n"), ("www/i", "Listen 3\n"), ("www/map", "a b\n"),
                           ("www/a/.htaccess", "Options All\n"), ("www/b/\u00e9 x", "c"), ("etc/x", "out\n"),
                           ("www/" + "n" * 200 + "/" + "m" * 250, "x"), ("www/latin/.htaccess", b"\xe9")):
            self.put(path, text)
        os.close(os.open(os.fsencode(self.at("www/")) + b"b/\xff", os.O_CREAT))
        os.close(os.open(self.at("www/b/new\nline"), os.O_CREAT))
        os.link(self.at("www/a/.htaccess"), self.at("www/b/.htaccess"))
        os.mkfifo(self.at("www/fifo"))
        self.folder("www/empty")
        for target, path in (("../off/b.conf", "conf/on/b.conf"), ("TOP/conf/off/a.conf", "conf/on/a.conf"),
                             ("none", "conf/on/c.conf"),
                             ("..", "www/a/up"), ("a", "www/copy"), ("TOP/etc", "www/out"),
                             ("TOP/conf/on", "www/deep/x"),
                             ("self", "www/self"), ("/", "www/slash"),
                             ("../../../../../../../../../../..TOP/www/b", "www/far"),
                             ("a/../b/./", "www/dots"), ("map/.", "www/mapdot"), ("none/../b", "www/nodots")):
            self.link(target, path)
        words = self.words() + ["--envvars", self.at("conf/env"), "--exclude", "copy"]
        status, lines, told = self.run_pack(*words)
        self.assertEqual(status, 1)
        self.assertGreater(len(lines), 20)
        expected = self.bytes
        for form, name in (("w", "a.tar"), ("w:gz", "a.tar.gz"), ("w:xz", "a.tar.xz"), ("w:bz2", "a.tar.bz2")):
            with tarfile.open(self.at(name), form) as tar:
                for folder in ("conf", "www", "etc"):
                    tar.add(self.at(folder))
            for how in ("file", "pipe"):
                with self.subTest(name + " " + how):
                    if how == "pipe":
                        with open(self.at(name), "rb") as file:
                            other = self.run_piped(file.read(), words + ["--from", "-"])
                        self.check_pipe(expected, other)
                    else:
                        other = self.run_pack(*words, "--from", self.at(name))
                        self.assertEqual(self.bytes, expected)
                        self.assertEqual(sorted(other[2].splitlines()), sorted(told.splitlines()))

    def run_piped(self, data, words):
        return self.run_pack(*words, input=data)

    def check_pipe(self, expected, other):
        """Texts that are configuration by no place of theirs can't be read from a pipe, and are told."""
        self.assert_told(other[2], "TOP/www/i (TOP/conf/main:4): its text went by unheld",
                         "TOP/www/map: its text went by unheld")
        was = expected.decode().splitlines()
        now = self.bytes.decode().splitlines()
        self.assertEqual({json.loads(line)["path"] for line in now}, {json.loads(line)["path"] for line in was})
        lost = {json.loads(line)["path"][len(self.top):] for line in set(was) - set(now)}
        self.assertEqual(lost, {"/www/i", "/www/map"})

    def test_names_of_members(self):
        status, lines, told = self.run_archive(self.MAIN, ("./www/./a/", None), ("/www//b", ""), ("../www/c", ""),
                                               ("www/../d", ""),
                                               ("www/dev", tarfile.CHRTYPE), ("www/pipe", tarfile.FIFOTYPE),
                                               ("www/odd", b"Z"),
                                               ("./", None), ("www/blk", tarfile.BLKTYPE), ("www/" + "x" * 300, ""),
                                               ("www/" + "y/" * 2100, None), ("www/esc\x1b", ""),
                                               ("www/incremental", b"D"))
        self.assertEqual(self.short(lines)[2:], ["dir /www/a", "file /www/b", "dir /www/incremental"])
        self.assertEqual(status, 1)
        self.assert_told(told, "member ../www/c: its name has a `..`", "member www/../d: its name has a `..`",
                         "/www/dev: it is a device", "/www/pipe: it is a fifo", "/www/odd: it is no file",
                         "/www/blk: it is a device",
                         "a name in it has over 255 bytes", "its path has over 4,096 bytes",
                         "/www/esc\\x1B: its name has")
        self.assertFalse(os.path.exists(self.at("www")))

    def test_the_last_of_several_counts(self):
        status, lines, told = self.run_archive(
            ("conf/main", "one\n"), self.MAIN, ("www/a", ""), ("www/a/b", ""), ("www/c", None), ("www/c/d", ""),
            ("www/c", ""),
            ("www/e", "-> a"), ("www/e", None), ("www/e/f", ""), ("www/g", None), ("www/g/h", ""), ("www/g", None))
        self.assertEqual((status, self.short(lines)), (0, ["main /conf/main", "put /conf/main", "file /www/a/b",
                                                           "file /www/c",
                                                           "file /www/e/f", "file /www/g/h"]), told)
        self.assertEqual(lines[1]["text"], "DocumentRoot /www\n")

    def test_links_in_an_archive(self):
        status, lines, told = self.run_archive(
            ("conf/main", "DocumentRoot /www\nInclude /conf/x\n"), ("off/x", "Listen 1\n"), ("conf/x", "=> off/x"),
            ("off/x", "two\n"),
            ("www/a", "=> ./conf/main"), ("www/b", "=> none"), ("www/c", "=> conf"), ("www/d", "=> ../conf/main"),
            ("www/e", "-> /conf"), ("www/e/main", ""), ("www/f", "-> ../../../conf/x"), ("www/g", "-> /off/x"),
            ("www/h", "-> /www"),
            ("www/i", "=> www/f"), ("www/j", "-> " + "k/" * 2100), ("www/k/.htaccess", "=> conf/x"))
        self.assertEqual(self.short(lines), ["main /conf/main", "put /conf/main", "put /conf/x", "file /www/a",
                                             "file /www/e/main",
                                             "file /www/e/x", "file /www/f", "dir /www/h", "file /www/i",
                                             "put /www/k/.htaccess"])
        self.assertEqual(self.texts(lines)["/conf/x"], "Listen 1\n")
        self.assertEqual(self.texts(lines)["/www/k/.htaccess"], "Listen 1\n")
        self.assertEqual(status, 1)
        self.assert_told(told, "member www/b: its hard link leads to nothing", "member www/c: its hard link",
                         "member www/d: its hard",
                         "member www/e/main: it is below a link", "/www/g: it is outside the given folders, at /off/x",
                         "/www/h: it leads back", "member www/j: its link has over 4,096 bytes")

    def test_an_archive_that_is_cut_or_none(self):
        with open(self.archive(self.MAIN, ("www/.htaccess", "x" * 2000), ("www/a", ""), ("www/b", "")), "rb") as file:
            whole = file.read()
        end = len(whole.rstrip(b"\0")) // 512 * 512 + 512
        cuts = {"empty": b"", "no header": whole[:100], "in a text": whole[:2300], "before the end": whole[:end],
                "in a header": whole[:end - 200], "bad header": whole[:end - 512] + b"x" * 512 + whole[end:],
                "no archive": b"hello\n" * 1000}
        words = ("--main", "/conf/main", "--root", "/www", "--from")
        for name, data in cuts.items():
            for where in ("-", self.at("cut.tar")):
                with self.subTest(name + where[:1]):
                    with open(self.at("cut.tar"), "wb") as file:
                        file.write(data)
                    status, lines, told = self.run_pack(*words, where, input=data)
                    self.assertEqual((status, lines), (2, []), told)
                    self.assert_told(told, "the archive can't be read")
        self.assertEqual(self.run_pack(*words, "-", input=whole)[0], 0)

    def test_hostile_headers(self):
        big = tarfile.TarInfo("x")
        big.type, big.size = tarfile.XHDTYPE, 1 << 40
        negative = bytearray(tarfile.TarInfo("y").tobuf(tarfile.GNU_FORMAT))
        negative[124:136] = b"\xff" * 12
        negative[148:156] = b"%06o\0 " % (256 + sum(negative[:148]) + sum(negative[156:]))
        with open(self.archive(self.MAIN, ("www/a", "")), "rb") as file:
            whole = file.read()
        for header in (big.tobuf(tarfile.GNU_FORMAT), bytes(negative)):
            status, lines, told = self.run_pack("--main", "/conf/main", "--root", "/www", "--from", "-",
                                                input=whole[:1024] + header + whole[1024:])
            self.assertEqual((status, lines), (2, []), told)

    def test_a_sparse_member(self):
        self.folder("www")
        self.put("conf/main", "DocumentRoot /www\n#" + "x" * 5000)
        with open(self.at("www/.htaccess"), "wb") as file:
            file.write(b"Options All\n#")
            file.seek(300000)
            file.write(b"\n#end\n")
        made = subprocess.run(["tar", "-C", self.top, "-S", "-cf", self.at("s.tar"), "conf", "www"], check=False)
        if made.returncode:
            self.skipTest("no tar is here")
        _, lines, told = self.run_pack("--main", "/conf/main", "--root", "/www", "--from", self.at("s.tar"))
        self.assertEqual(len(self.texts(lines)["/www/.htaccess"]), 300006, told)
        self.assertTrue(self.texts(lines)["/www/.htaccess"].endswith("\0\n#end\n"))


if __name__ == "__main__":
    unittest.main()
