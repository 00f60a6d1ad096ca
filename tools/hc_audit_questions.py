"""The questions of an audit: which there are, in which order, and as lines of JSON."""

import bisect
import fnmatch
import json
import re
from dataclasses import dataclass, field
from typing import List, Optional
from urllib.parse import quote

from hc_audit_config import Host, firsts

SERVER = b"192.0.2.1"
# Over all these a claim is stated; one that a rule of the world asks for isn't looked for.
METHODS = ["GET", "HEAD", "POST", "PUT", "PATCH", "DELETE", "OPTIONS", "TRACE", "TRACK"]
HOST_FORM = re.compile(rb"[A-Za-z0-9.-]{0,255}")
PLAIN_PATH = re.compile(rb"[!-$&->@-~\x80-\xff]*")
SAFE = "/$-_.+!*'(),:;@&=~"
MOST_HOLES = 200
MOST_LOOKED_AT = 200
KINDS = ("hidden", "guard", "stops", "chain", "htaccess", "rule")
MOST_ORIGINS = 16


def text_of(path):
    """A path as a text for JSON."""
    return path.decode("utf-8", "surrogatepass")


# ---- scopes


@dataclass(eq=False)
class Scope:
    """One name of a host at one address; the requests that come there."""

    host: Host
    server: bytes
    port: int
    scheme: str
    name: bytes

    def fields(self):
        """The fields that a scope and an `ask` share."""
        return {"scheme": self.scheme, "server": text_of(self.server), "port": self.port, "host": text_of(self.name)}

    def origin(self):
        """How its URLs begin, as a `follow` names it."""
        return {"host": text_of(self.name), "port": self.port, "scheme": self.scheme}

    def url(self):
        """The front of its URLs."""
        port = "" if self.port == (443 if self.scheme == "https" else 80) else f":{self.port}"
        name = text_of(self.name) if self.name else text_of(self.server)
        return f"{self.scheme}://{name}{port}"


class Servers:
    """Which server answers at an address, by docs/RULES.md (Which server answers)."""

    def __init__(self, found):
        self.found = found
        self._at = {}
        self._secure_ports = {port for _, port, is_secure in found.ports if is_secure} | {443}
        for host in found.hosts:
            for pair in dict.fromkeys(host.addresses):
                self._at.setdefault(pair, _Named()).add(host)

    def answering(self, server, port, name):
        """The host that answers for a name, at an address and a port."""
        named = self._at.get((server, port)) or self._at.get((b"*", port))
        return named.host_of(name) if named else self.found.main

    def listens(self, address, port):
        """Whether the server listens at a port of an address, which may be any."""
        return any(port == number and (b"*" in (address, at) or address == at) for at, number, _ in self.found.ports)

    def addresses(self, host):
        """The addresses of a host: where httpd passes over its section, those at which the server listens."""
        return [pair for pair in host.addresses if not host.closed or self.listens(*pair)]

    def pairs(self):
        """Each address and port, those of the hosts first."""
        given = [pair for host in self.found.hosts for pair in self.addresses(host)]
        given += [(address, port) for address, port, _ in self.found.ports]
        return list(dict.fromkeys((SERVER if address == b"*" else address, port) for address, port in given))

    def scope(self, server, port, name):
        """The scope of a name at an address."""
        host = self.answering(server, port, name)
        is_secure = host.is_secure or port in self._secure_ports
        return Scope(host, server, port, "https" if is_secure else "http", name)


class _Named:
    """The hosts at one address, by their names."""

    def __init__(self):
        self.hosts, self._exact, self._wild = [], {}, []

    def add(self, host):
        at = len(self.hosts)
        self.hosts.append(host)
        for name in host.names():
            self._exact.setdefault(name.lower(), at)
        for alias in host.wild_names():
            glob = fnmatch.translate(alias.lower().replace(b"[", b"[[]").decode("latin-1"))
            self._wild.append((at, re.compile(glob.encode("latin-1"))))

    def host_of(self, name):
        low = name.lower()
        best = self._exact.get(low, len(self.hosts))
        wild = next((at for at, glob in self._wild if at < best and glob.match(low)), best)
        return self.hosts[wild if wild < len(self.hosts) else 0]


def scopes_of(found, only=()):
    """The scopes of the hosts in their order, the main server's first; or those of the names that are given."""
    servers = Servers(found)
    given = _named_scopes(servers, only) if only else _own_scopes(servers)
    order = {host: at for at, host in enumerate([found.main, *found.hosts])}
    unique = firsts(given, lambda scope: (scope.server, scope.port, scope.name.lower()))
    return sorted(unique, key=lambda scope: order[scope.host])


def _own_scopes(servers):
    main = servers.found.main
    wanted = [(main, [(address, port) for address, port, _ in servers.found.ports])]
    wanted += [(host, servers.addresses(host)) for host in servers.found.hosts]
    made = []
    for host, pairs in wanted:
        names = [name for name in host.names() if HOST_FORM.fullmatch(name)] or [b"localhost"]
        places = [(SERVER if address == b"*" else address, port) for address, port in pairs]
        every = [servers.scope(server, port, name) for server, port in places for name in names]
        made += [scope for scope in every if scope.host is host]
    return made


def _named_scopes(servers, only):
    made = []
    for name in only:
        every = [servers.scope(server, port, name) for server, port in servers.pairs()]
        made += [scope for scope in every if scope.host.has(name)] or every
    return made


# ---- folders


class Roots:
    """The folders that are served, each with the scopes of the hosts that serve it."""

    def __init__(self, found, scopes):
        self._by_root, self._maps = {}, {}
        for scope in scopes:
            root = scope.host.root or found.main.root
            if root:
                self._by_root.setdefault(root, []).append(scope)
            maps = scope.host.maps + (found.main.maps if scope.host is not found.main else [])
            for url, target in maps:
                self._maps.setdefault(target.rstrip(b"/"), []).append((url, target, scope))
        self._sorted = sorted({*self._by_root, *self._maps})
        self._firsts = {root: first_of_hosts(given) for root, given in self._by_root.items()}

    def urls(self, path):
        """The URL paths of a path, those of the longest document root first: each with a scope of each host."""
        found = []
        for top in _tops(path):
            if top in self._by_root:
                found.append((path if top == b"/" else path[len(top):], self._firsts[top]))
        for top in _tops(path):
            for url, target, scope in self._maps.get(top if top != b"/" else b"", ()):
                rest = path[len(target):]
                if path.startswith(target) and (url.endswith(b"/") or not rest or rest.startswith(b"/")):
                    found.append((url + rest, [scope]))
        return found

    def near(self, folder):
        """The scopes of the hosts that serve something above or below a folder."""
        tops = [top for top in _tops(folder) if top in self._by_root or top.rstrip(b"/") in self._maps]
        tops += self.below(folder)
        given = [scope for top in tops for scope in self._by_root.get(top, ())]
        given += [scope for top in tops for _, _, scope in self._maps.get(top.rstrip(b"/"), ())]
        return set(given)

    def below(self, folder):
        """The folders that are served and lie below a folder."""
        front, found = folder.rstrip(b"/") + b"/", []
        at = bisect.bisect_left(self._sorted, front)
        while at < len(self._sorted) and self._sorted[at].startswith(front):
            found.append(self._sorted[at])
            at += 1
        return found


def _tops(path):
    """A path and the folders above it, the deepest first."""
    while len(path) > 1:
        yield path
        path = path.rpartition(b"/")[0]
    yield b"/"


def first_of_hosts(scopes):
    """The first scope of each host."""
    return firsts(scopes, lambda scope: scope.host)


# ---- sets


def escaped(path):
    """A path as a pattern of just its bytes."""
    return re.sub(r"([^A-Za-z0-9/_\x80-\U0010ffff-])", r"\\\1", text_of(path))


def below(folder):
    """The set of the file names of a folder and of all below it."""
    return {"pattern": "^/" if folder == b"/" else f"^{escaped(folder)}(?:/|$)"}


class Holes:
    """The folders that have `Require` lines of their own, which replace those above them."""

    def __init__(self, guards):
        self._hosts = {}
        for guard in guards:
            if guard.folder:
                self._hosts.setdefault(guard.folder, set()).add(guard.host)
        self._folders = sorted(self._hosts)

    def below(self, folder, host):
        """Those of a host below a folder, without what lies in one of them."""
        front, found = folder.rstrip(b"/") + b"/", []
        at = bisect.bisect_right(self._folders, front)
        while at < len(self._folders) and self._folders[at].startswith(front):
            name = self._folders[at]
            at += 1
            if {None, host} & self._hosts[name] and not any(top in found for top in _tops(name)):
                found.append(name)
                if len(found) > MOST_HOLES:
                    break
        return found


def target_of(folder, holes):
    """The set of a folder without those below it."""
    if not holes:
        return below(folder)
    return {"minus": [below(folder), {"or": [below(hole) for hole in holes]}]}


# ---- questions


@dataclass
class Question:
    """A line of JSON, what it is about, and its number in the script."""

    kind: str
    case: "Case"
    fields: dict
    scope: Optional[Scope] = None
    number: int = 0
    line: bytes = b""


@dataclass(eq=False)
class Case:
    """What is asked of one thing: of each of its scopes one question."""

    kind: str
    of: object
    scopes: List[Scope]
    targets: List[bytes] = field(default_factory=list)
    holes: Optional[Holes] = None

    def fields(self, at):
        """The fields of the question of a scope; None where there is none."""
        scope = self.scopes[at]
        if self.kind == "chain":
            return {"do": "follow", **scope.fields(), "target": "/", "hosts": self.of}
        if self.kind in ("hidden", "htaccess"):
            target = quote(self.targets[at], safe=SAFE)
            return {"do": "ask", **scope.fields(), "target": target, "trail": True}
        claim = {"kind": "stops"}
        if self.kind != "stops":
            path, line = self.of.place
            claim = {"kind": "shadowed", "file": text_of(path), "line": line}
        if self.kind == "guard":
            holes = self.holes.below(self.of.folder, scope.host)
            if len(holes) > MOST_HOLES:
                return None
            claim.update(kind="guarded", target=target_of(self.of.folder, holes))
        return {"do": "decide", "claim": claim, "scope": {**scope.fields(), "methods": METHODS}}


@dataclass
class Plan:
    """The questions in their order, what is left out for their number, and what isn't asked and why."""

    questions: List[Question]
    scopes: List[Scope]
    left_out: dict
    skipped: list


class Planner:
    """Makes the questions of what a world names."""

    def __init__(self, world, found, only=()):
        self.world, self.found = world, found
        self.scopes = scopes_of(found, only)
        self.roots = Roots(found, self.scopes)
        self.holes = Holes(found.guards)
        self.skipped = {}
        self._of_host, self._of_rules = {}, {}
        self._order = {scope: at for at, scope in enumerate(self.scopes)}
        for scope in self.scopes:
            self._of_host.setdefault(scope.host, []).append(scope)
        self._skip_ports()

    def _skip_ports(self):
        """Says which ports aren't asked for, since httpd passes over the lines that name them."""
        asked = {(scope.server, scope.port) for scope in self.scopes}
        closed = [(port.place, port.address, port.port, port.closed) for port in self.found.closed_ports]
        closed += [(host.place, *pair, host.closed) for host in self.found.hosts if host.closed
                   for pair in host.addresses]
        for place, address, port, reason in closed:
            if (SERVER if address == b"*" else address, port) not in asked:
                self._skip(place, f"its port {port} isn't asked for, since {reason}")

    def plan(self, most, first_number):
        """The questions, at most so many; the first one has that number in the script."""
        cases = {
            "hidden": self._hidden(), "guard": self._guards(), "stops": self._stops(), "chain": self._chains(),
            "htaccess": self._htaccess(), "rule": self._rules(),
        }
        totals = {kind: sum(len(case.scopes) for case in cases[kind]) for kind in KINDS}
        asked, questions = shares(totals, most), []
        for kind in KINDS:
            for case, at in _taken(cases[kind], asked[kind]):
                self._add(questions, case, at)
        for number, question in enumerate(questions, first_number):
            question.number = number
            question.line = json.dumps(question.fields).encode() + b"\n"
        left = {kind: totals[kind] - asked[kind] for kind in KINDS if totals[kind] > asked[kind]}
        return Plan(questions, self.scopes, left, list(self.skipped))

    def _add(self, questions, case, at):
        fields = case.fields(at)
        if fields is None:
            self._skip(case.of.place, "too many folders below it have `Require` lines of their own")
        else:
            questions.append(Question(case.kind, case, fields, case.scopes[at]))

    def _skip(self, place, reason):
        self.skipped.setdefault((place, reason))

    # ---- cases

    def _stops(self):
        return [Case("stops", scope.host, [scope]) for scope in self.scopes]

    def _chains(self):
        """Where the front page of each name leads, among its own name and the first others."""
        if not self.found.redirects:
            return []
        others = firsts([scope.origin() for scope in self.scopes], lambda origin: tuple(origin.values()))
        cases = []
        for scope in self.scopes:
            own = scope.origin()
            cases.append(Case("chain", [own, *(other for other in others if other != own)][:MOST_ORIGINS], [scope]))
        return cases

    def _guards(self):
        cases, seen = [], set()
        for guard in self.found.guards:
            told = (guard.place, guard.host, guard.folder)
            if guard.is_open or told in seen:
                continue
            seen.add(told)
            scopes = self._of_host.get(guard.host, []) if guard.host else self.scopes
            if guard.reason or not scopes:
                self._skip(guard.place, guard.reason or "no request to its host is asked for")
            else:
                cases.append(Case("guard", guard, scopes, holes=self.holes))
        return cases

    def _rules(self):
        by_place = {}
        for rule in self.found.rules:
            by_place.setdefault(rule.place, []).append(rule)
        cases = []
        for place, rules in by_place.items():
            scopes = self._scopes_of_rules(rules)
            if scopes:
                cases.append(Case("rule", rules[0], scopes))
            else:
                self._skip(place, "no request to its host is asked for")
        return cases

    def _scopes_of_rules(self, rules):
        """The scopes of the rules of one place, in their order; one list for all places with the same."""
        told = tuple((rule.host, rule.is_of_server, rule.folder) for rule in rules)
        if told not in self._of_rules:
            given = [self._scopes_of_rule(rule) for rule in rules]
            is_all = any(scopes is self.scopes for scopes in given)
            wanted = () if is_all else set().union(*given)
            self._of_rules[told] = self.scopes if is_all else sorted(wanted, key=self._order.get)
        return self._of_rules[told]

    def _scopes_of_rule(self, rule):
        if rule.host:
            return self._of_host.get(rule.host, ())
        if rule.is_of_server:
            hosts = [self.found.main] + [host for host in self.found.hosts if host.inherits]
            return [scope for host in hosts for scope in self._of_host.get(host, ())]
        return rule.folder and self.roots.near(rule.folder) or self.scopes

    def _hidden(self):
        cases = []
        for path in self.world.listed():
            if path.rpartition(b"/")[2].startswith(b".ht"):
                asked = [(scope, url) for url, scopes in self.roots.urls(path) for scope in scopes]
                if asked:
                    cases.append(Case("hidden", path, [scope for scope, _ in asked], [url for _, url in asked]))
        return cases

    def _htaccess(self):
        listed, cases = self.world.listed(), []
        for path in listed:
            if not path.endswith(b"/.htaccess"):
                continue
            url, scopes = self._way_below(listed, path[:-9])
            if scopes:
                cases.append(Case("htaccess", path, scopes, [url] * len(scopes)))
            else:
                self._skip((path, 0), "no document root and no `Alias` leads to its folder")
        return cases

    def _way_below(self, listed, folder):
        """The URL path of a file below a folder, which ends in a slash, and the scopes that have it."""
        for top in [folder, *(root.rstrip(b"/") + b"/" for root in self.roots.below(folder)[:MOST_LOOKED_AT])]:
            for url, scopes in self.roots.urls(_sample(listed, top)):
                return url, scopes
        return b"", []


def _sample(listed, folder):
    """A file below a folder, which ends in a slash; one that can be asked for if there is one, or the folder."""
    at = bisect.bisect_left(listed, folder)
    for path in listed[at : at + MOST_LOOKED_AT]:
        if not path.startswith(folder):
            break
        if not path.rpartition(b"/")[2].startswith(b".ht") and PLAIN_PATH.fullmatch(path):
            return path
    return folder


def shares(totals, most):
    """How many questions of each kind are asked: small kinds whole, and the others in equal parts."""
    given, kinds = {}, sorted(totals, key=lambda kind: totals[kind])
    for at, kind in enumerate(kinds):
        given[kind] = min(totals[kind], most // (len(kinds) - at))
        most -= given[kind]
    return given


def _taken(cases, most):
    """The first questions: one of each case, then a second one of each; in the order of the cases."""
    counts, turn = [0] * len(cases), 0
    open_cases = range(len(cases))
    while most > 0 and open_cases:
        open_cases = [at for at in open_cases if len(cases[at].scopes) > turn]
        for at in open_cases[:most]:
            counts[at] += 1
        most -= min(most, len(open_cases))
        turn += 1
    return [(case, at) for case, count in zip(cases, counts) for at in range(count)]
