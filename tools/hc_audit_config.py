"""The servers, guards and rules that a world's configuration texts name, read in a simple way.

hc itself decides what a line does; this finds out which questions to ask. Included files, `Define`, `IfDefine` and
`IfModule` are followed; sections other than those of folders are only told apart.

hc takes some modules for present that nothing loads. Ports are another matter: one that a module alone opens is asked
for only where httpd would open it, so a section has both views.
"""

import fnmatch
import re
from dataclasses import dataclass, field
from typing import List, Optional, Tuple

from hc_report_files import VARIABLE, Files, words
from hc_report_texts import data_of

MAIN = b"/etc/httpd/conf/httpd.conf"
DEEPEST = 32
MOST_LINES = 1_000_000
WILD = re.compile(rb"[*?\[\\]")
CONTAINERS = (b"requireall", b"requireany", b"requirenone", b"ifmodule", b"ifdefine")
ADDRESS = re.compile(rb"[0-9]{1,3}(?:\.[0-9]{1,3}){3}")
REWRITING = (b"rewriterule", b"rewritecond")
# A flag of a rule that sends to another URL.
SENDS = re.compile(rb"[\[,][ \t]*(?:r|redirect)[ \t]*[=,\]]", re.IGNORECASE)
STANDARD = (
    b"so alias rewrite authz_core authz_host dir mime log_config headers expires setenvif env deflate filter"
    b" autoindex negotiation status ssl unixd"
).split()
MODULE_FILE = re.compile(rb"(?:mod_)?([A-Za-z0-9_]+)\.c")
MODULE = re.compile(rb"[A-Za-z0-9_]+_module")
# The modules that are there wherever one is loaded.
BUILT_IN = (b"core_module", b"so_module")

Place = Tuple[bytes, int]


# ---- what is found


@dataclass(eq=False)
class Host:
    """The main server, which has no place, or a virtual host; `closed` is why httpd passes over its section."""

    place: Optional[Place]
    addresses: List[Tuple[bytes, int]] = field(default_factory=list)
    name: Optional[bytes] = None
    aliases: List[bytes] = field(default_factory=list)
    root: Optional[bytes] = None
    maps: List[Tuple[bytes, bytes]] = field(default_factory=list)
    is_secure: bool = False
    inherits: bool = False
    closed: str = ""

    def names(self):
        """Its names without wildcards, each once."""
        given = ([self.name] if self.name is not None else []) + [name for name in self.aliases if not _is_wild(name)]
        return firsts(given, bytes.lower)

    def wild_names(self):
        """Its aliases with wildcards."""
        return [name for name in self.aliases if _is_wild(name)]

    def has(self, name):
        """Whether it is named so."""
        low = name.lower()
        return low == (self.name or b"").lower() and self.name is not None or any(
            fnmatch.fnmatchcase(low, _only_stars(alias.lower())) for alias in self.aliases
        )


def firsts(items, key):
    """The items in their order, of those with one key the first."""
    found = {}
    for item in items:
        found.setdefault(key(item), item)
    return list(found.values())


def _is_wild(name):
    return b"*" in name or b"?" in name


def _only_stars(glob):
    return glob.replace(b"[", b"[[]")


@dataclass(eq=False)
class Guard:
    """A `Require` line: the folder that it stands for, or why no question is asked of it."""

    place: Place
    folder: Optional[bytes]
    host: Optional[Host]
    is_open: bool = False
    reason: str = ""


@dataclass(eq=False)
class Rule:
    """A `RewriteRule`: the virtual host that it stands in, and the folder of its `.htaccess`."""

    place: Place
    host: Optional[Host]
    folder: Optional[bytes] = None
    is_of_server: bool = False


@dataclass
class Port:
    """What a `Listen` opens, and why httpd passes over it where a section does."""

    place: Place
    address: bytes
    port: int
    is_secure: bool = False
    closed: str = ""


@dataclass
class Found:
    """What the texts of a world name. Ports that are closed are those that hc's view of modules would open."""

    main: Host = field(default_factory=lambda: Host(None))
    hosts: List[Host] = field(default_factory=list)
    guards: List[Guard] = field(default_factory=list)
    rules: List[Rule] = field(default_factory=list)
    ports: List[Tuple[bytes, int, bool]] = field(default_factory=list)
    closed_ports: List[Port] = field(default_factory=list)
    files: List[bytes] = field(default_factory=list)
    redirects: bool = False
    is_cut: bool = False


# ---- the world


class World:
    """What stands where, and the texts, as edits that were done leave it."""

    def __init__(self):
        self.files = Files()
        self.names = {}
        self.main = MAIN
        self.edits = 0

    def follow(self, command):
        """Does an edit that was done."""
        path = (command.fields or {}).get("path")
        if not isinstance(path, str):
            return
        self.edits += 1
        self.files.follow(command)
        path, kind = data_of(path), command.fields.get("kind")
        if command.name == "main":
            self.main = path
        elif command.name == "put" or command.name == "list" and kind in ("file", "dir"):
            self.names[path] = "dir" if kind == "dir" and command.name == "list" else "file"
        elif command.name == "drop":
            below = path + b"/"
            self.names = {name: of for name, of in self.names.items() if name != path and not name.startswith(below)}

    def listed(self):
        """All paths of files, in byte order."""
        return sorted(name for name, kind in self.names.items() if kind == "file")


# ---- lines


def logical_lines(text):
    """The logical lines of a text, each with its number; without comments and empty lines."""
    pieces, joined, first = text.split(b"\n"), [], 0
    for number, piece in enumerate(pieces, 1):
        first = first if joined else number
        if piece.endswith(b"\\") and number < len(pieces):
            joined.append(piece[:-1])
            continue
        line = b"".join([*joined, piece]).strip(b" \t\r")
        joined = []
        if line and not line.startswith(b"#"):
            yield first, line


@dataclass
class Section:
    """An opening: its name in lower case, its words and its place.

    `is_kept` is whether hc looks at what stands in it; `closed` is why httpd doesn't, or empty.
    """

    name: bytes
    words: List[bytes]
    place: Place
    is_kept: bool = True
    closed: str = ""


def _opening(line, place):
    inner = line[1 : line.rfind(b">")] if b">" in line else line[1:]
    name = re.split(rb"[ \t]", inner, maxsplit=1)[0]
    return Section(name.lower(), [word for word, _ in words(inner[len(name):])], place)


class Reader:
    """Reads the texts of a world, and gathers what they name."""

    def __init__(self, world):
        self.world = world
        self.found = Found()
        self._defines, self._root = {}, None
        # What is loaded in hc's view and in httpd's, whether anything is, and what `Listen` lines say in either.
        self._modules, self._loaded, self._loads = set(), set(), False
        self._listens = []
        self._folders = None
        self._host_of = {}
        self._left = MOST_LINES

    def read(self):
        """What the configuration and the `.htaccess` texts name."""
        self._file(self.world.main, (), ())
        for path in self.world.files.paths():
            if path.endswith(b"/.htaccess"):
                self._text(path, (Section(b".htaccess", [], (path, 0)),), ())
        self._tell_ports()
        return self.found

    def _tell_ports(self):
        """Tells the ports that are open from those that aren't. Where nothing is loaded, modules are built in."""
        for host in self.found.hosts:
            host.closed = host.closed if self._loads else ""
        for port, is_kept in self._listens:
            is_open = not port.closed if self._loads else is_kept
            if is_open:
                self.found.ports.append((port.address, port.port, port.is_secure))
            elif is_kept:
                self.found.closed_ports.append(port)
        self.found.ports = self.found.ports or [(b"*", 80, False)]

    # ---- files

    def _file(self, path, sections, chain):
        if self.world.files.text(path) is None or path in chain or len(chain) > DEEPEST:
            return
        self.found.files += [] if path in self.found.files[-1:] else [path]
        self._text(path, sections, (*chain, path))

    def _text(self, path, sections, chain):
        stack = list(sections)
        for number, line in logical_lines(self.world.files.text(path) or b""):
            self._left -= 1
            if self._left < 0:
                self.found.is_cut = True
                return
            line = self._with_values(line)
            if line.startswith(b"</"):
                if len(stack) > len(sections):
                    stack.pop()
            elif line.startswith(b"<"):
                stack.append(self._entered(stack, _opening(line, (path, number))))
            else:
                self._directive((path, number), line, stack, chain)

    def _with_values(self, line):
        def value(found):
            return self._defines.get(found[0][2:-1]) or found[0]

        return VARIABLE.sub(value, line) if b"${" in line else line

    def _entered(self, stack, opening):
        """An opening within others, in both views."""
        is_kept = self._keeps(opening)
        opening.is_kept = _is_kept(stack) and is_kept
        opening.closed = _closed_in(stack) or self._why_closed(opening, is_kept)
        if opening.is_kept:
            self._opens(opening)
        return opening

    def _keeps(self, opening):
        if opening.name not in (b"ifdefine", b"ifmodule"):
            return True
        name, is_reversed = _tested(opening)
        there = name in (self._defines if opening.name == b"ifdefine" else self._modules)
        return (there or opening.name == b"ifmodule" and _is_standard(name)) != is_reversed

    def _why_closed(self, opening, is_kept):
        """Why httpd passes over a section; empty where it doesn't, as far as LoadModule lines tell."""
        word, is_reversed = _tested(opening)
        file = MODULE_FILE.fullmatch(word)
        name = file[1] + b"_module" if file else word
        if opening.name != b"ifmodule" or not MODULE.fullmatch(name):
            return "" if is_kept else "its section doesn't count"
        is_loaded = name in self._loaded or name in BUILT_IN
        if is_loaded != is_reversed:
            return ""
        named = name.decode("ascii")
        return f"`{named}` is loaded" if is_loaded else f"nothing loads `{named}` before it"

    def _opens(self, opening):
        if opening.name != b"virtualhost":
            return
        host = self._host_of[opening.place] = Host(opening.place, closed=opening.closed)
        for word in opening.words:
            address, _, port = word.rpartition(b":")
            if _is_port(port):
                host.addresses.append((b"*" if address == b"_default_" else address, int(port)))
        host.is_secure = any(port == 443 for _, port in host.addresses)
        self.found.hosts.append(host)

    # ---- directives

    def _directive(self, place, line, stack, chain):
        name = re.split(rb"[ \t]", line, maxsplit=1)[0].lower()
        act = DIRECTIVES.get(name)
        if act and (_is_kept(stack) or name in IN_BOTH_VIEWS):
            given = [word for word, _ in words(line, name in REWRITING)][1:]
            act(self, place, given, stack, chain)

    def _host(self, stack):
        openings = [opening for opening in stack if opening.name == b"virtualhost"]
        return self._host_of.get(openings[-1].place) if openings else None

    def _define(self, _place, given, _stack, _chain):
        if given:
            self._defines[given[0]] = given[1] if len(given) > 1 else b""

    def _load(self, _place, given, stack, _chain):
        self._loads = True
        self._modules.update(given[:1] if _is_kept(stack) else ())
        self._loaded.update(given[:1] if not _closed_in(stack) else ())

    def _server_root(self, _place, given, _stack, _chain):
        self._root = given[0] if given else self._root

    def _include(self, _place, given, stack, chain):
        path = given[0] if given else b""
        if path and not path.startswith(b"/"):
            path = (self._root or b"") + b"/" + path
        for file in self._named(path):
            if chain:
                self._file(file, tuple(stack), chain)

    def _named(self, path):
        """The files that a path with wildcards names, in byte order."""
        parts = [part for part in path.split(b"/") if part]
        if not WILD.search(path):
            return [b"/" + b"/".join(parts)]
        at = [b""]
        for part in parts:
            if WILD.search(part):
                glob = re.compile(fnmatch.translate(part.decode("latin-1")).encode("latin-1"))
                at = [top + b"/" + name for top in at for name in sorted(self._below(top)) if glob.match(name)]
            else:
                at = [top + b"/" + part for top in at]
        return sorted(at)

    def _below(self, folder):
        if self._folders is None:
            self._folders = {}
            for path in self.world.names:
                top, _, name = path.rpartition(b"/")
                while name and name not in self._folders.setdefault(top, set()):
                    self._folders[top].add(name)
                    top, _, name = top.rpartition(b"/")
        return self._folders.get(folder, ())

    def _of_server(self, stack):
        """The server that a line of a server speaks of."""
        return self._host(stack) or self.found.main

    def _name(self, _place, given, stack, _chain):
        if given:
            self._of_server(stack).name = given[0].split(b":")[0]

    def _aliases(self, _place, given, stack, _chain):
        self._of_server(stack).aliases += given

    def _document_root(self, _place, given, stack, _chain):
        if given:
            self._of_server(stack).root = _folder(given[0])

    def _map(self, _place, given, stack, _chain):
        if len(given) == 2 and given[1].startswith(b"/"):
            self._of_server(stack).maps.append((given[0], given[1]))

    def _secure(self, _place, given, stack, _chain):
        if given and given[0].lower() == b"on":
            self._of_server(stack).is_secure = True

    def _options(self, _place, given, stack, _chain):
        if given and not _folders_of(stack):
            self._of_server(stack).inherits = True

    def _listen(self, place, given, stack, _chain):
        address, _, port = given[0].rpartition(b":") if given else (b"", b"", b"")
        if _is_port(port) and (not address or _is_address(address)):
            address = b"*" if address in (b"", b"0.0.0.0") else address
            is_secure = given[1:2] == [b"https"] or port == b"443"
            opened = Port(place, address, int(port), is_secure, _closed_in(stack))
            self._listens.append((opened, _is_kept(stack)))

    def _require(self, place, given, stack, _chain):
        folder, reason = _folder_of(stack)
        is_open = [word.lower() for word in given[:2]] == [b"all", b"granted"]
        self.found.guards.append(Guard(place, folder, self._host(stack), is_open, reason))

    def _redirect(self, _place, _given, _stack, _chain):
        self.found.redirects = True

    def _rule(self, place, given, stack, _chain):
        self.found.redirects |= len(given) > 1 and b"://" in given[1] or len(given) > 2 and bool(SENDS.search(given[2]))
        inner = _folders_of(stack)
        folder = _folder(place[0].rpartition(b"/")[0]) if inner and inner[0].name == b".htaccess" else None
        self.found.rules.append(Rule(place, self._host(stack), folder, not inner))


DIRECTIVES = {
    b"define": Reader._define, b"loadmodule": Reader._load, b"serverroot": Reader._server_root,
    b"include": Reader._include, b"includeoptional": Reader._include, b"servername": Reader._name,
    b"serveralias": Reader._aliases, b"documentroot": Reader._document_root, b"alias": Reader._map,
    b"scriptalias": Reader._map, b"sslengine": Reader._secure, b"rewriteoptions": Reader._options,
    b"listen": Reader._listen, b"require": Reader._require, b"rewriterule": Reader._rule,
    b"redirect": Reader._redirect, b"redirectmatch": Reader._redirect, b"redirectpermanent": Reader._redirect,
    b"redirecttemp": Reader._redirect,
}
IN_BOTH_VIEWS = (b"listen", b"loadmodule")


def _is_kept(stack):
    return not stack or stack[-1].is_kept


def _closed_in(stack):
    return stack[-1].closed if stack else ""


def _tested(opening):
    """What an `IfDefine` or an `IfModule` asks for, and whether it asks for its absence."""
    word = opening.words[0] if opening.words else b""
    return (word[1:], True) if word.startswith(b"!") else (word, False)


def _is_port(word):
    return word.isdigit() and len(word) <= 5 and int(word) <= 65535


def _is_address(word):
    return ADDRESS.fullmatch(word) and all(int(number) <= 255 for number in word.split(b"."))


def _is_standard(name):
    inner = name[4:-2] if name.startswith(b"mod_") and name.endswith(b".c") else None
    inner = name[:-7] if name.endswith(b"_module") else inner
    return inner in STANDARD or name in (b"core.c", b"core_module")


def _folder(path):
    """A path without its final slash; the root stays."""
    return path[:-1] if len(path) > 1 and path.endswith(b"/") else path or b"/"


def _folders_of(stack):
    return [opening for opening in stack if opening.name not in CONTAINERS and opening.name != b"virtualhost"]


def _folder_of(stack):
    """The folder that a `Require` stands for; or None, and why no question is asked of it."""
    openings = _folders_of(stack)
    if not openings:
        return None, "it stands in no section"
    inner = openings[-1]
    if len(openings) > 1 or inner.name not in (b".htaccess", b"directory"):
        kind = inner.name.decode("ascii", "replace")
        return None, f"a section `{_plain_name(kind)}` isn't a folder"
    if inner.name == b".htaccess":
        return _folder(inner.place[0].rpartition(b"/")[0]), ""
    path = inner.words[0] if len(inner.words) == 1 else b""
    if WILD.search(path) or not path.startswith(b"/"):
        return None, "its `Directory` is a pattern, or has wildcards"
    return _folder(path), ""


NAMES = ("Location", "LocationMatch", "Files", "FilesMatch", "If", "ElseIf", "Else", "DirectoryMatch", "Directory")


def _plain_name(low):
    return {name.lower(): name for name in NAMES}.get(low, "of another kind")
