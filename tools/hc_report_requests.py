"""Requests, claims, scopes and cells in words, and the curl line of a request."""

import json
import re
import shlex
from dataclasses import dataclass
from typing import Dict

from hc_report_files import place_shown
from hc_report_parts import Sentence
from hc_report_texts import counted, data_of, listed, say, undo

SERVER = "192.0.2.1"
DEEPEST = 32
LONGEST_LINE = 65536
DEFAULTS = {"method": "GET", "scheme": "http", "server": SERVER, "host": "localhost", "client": "192.0.2.9"}
NUMBER = "(?:0|[1-9][0-9]{0,2})"
ADDRESS = rf"{NUMBER}(?:\.{NUMBER}){{3}}|[0-9A-Fa-f:]*:[0-9A-Fa-f:]*"
FORMS = {
    "method": r"[A-Z]{1,32}",
    "scheme": r"https?",
    "server": ADDRESS,
    "host": r"[A-Za-z0-9.-]{0,255}",
    "client": ADDRESS,
    "target": r"/[!-\"$-~]*",
}
HEADER_NAME = re.compile(r"[A-Za-z0-9_-]{1,64}")
HEADER_VALUE = re.compile(r"[ -~]*")
PLAIN_HOST = re.compile(r"[A-Za-z0-9][A-Za-z0-9-]*(\.[A-Za-z0-9-]+)*")


# ---- requests


@dataclass
class Request:
    """A request with all its fields."""

    method: str
    scheme: str
    server: str
    port: int
    host: str
    client: str
    headers: Dict[str, str]
    target: str


def _unprinted(text):
    return undo(text).decode("utf-8", "backslashreplace")


def request_of(fields, is_printed=False):
    """The request of an `ask`, or the printed one of a reply; None where a field has another type."""
    read = _unprinted if is_printed else str
    given = {name: fields.get(name, default) for name, default in DEFAULTS.items()}
    given["target"] = fields.get("target")
    headers = fields.get("headers", {})
    texts = [*given.values(), *headers.values()] if isinstance(headers, dict) else [None]
    port = fields.get("port", 443 if given["scheme"] == "https" else 80)
    if type(port) is not int or not 0 <= port <= 65535 or not all(isinstance(text, str) for text in texts):
        return None
    read_headers = {read(name): read(value) for name, value in headers.items()}
    return Request(port=port, headers=read_headers, **{name: read(text) for name, text in given.items()})


def _port_shown(request):
    return "" if request.port == (443 if request.scheme == "https" else 80) else f":{request.port}"


def _server_shown(request):
    return f"[{request.server}]" if ":" in request.server else request.server


def subject(request):
    """The request as a sentence begins with it."""
    url = f"{request.scheme}://{request.host or _server_shown(request)}{_port_shown(request)}{request.target}"
    return say("{} {}", request.method, url) + (() if request.host else (" without a Host header",))


def came(request, fields):
    """A sentence on where a request comes from and with which headers, as far as these fields say, or none."""
    said = ()
    if "client" in fields:
        said += say(" from the client {}", request.client)
    if "server" in fields:
        said += say(" to the server {}", request.server)
    if request.headers:
        lines = [say("{}", f"{name}: {value}") for name, value in request.headers.items()]
        said += (" with the header " if len(lines) == 1 else " with the headers ",) + listed(lines)
    return [Sentence(("The request comes",) + said + (".",))] if said else []


# ---- curl


def _is_formed(request):
    formed = all(re.fullmatch(form, getattr(request, name)) for name, form in FORMS.items())
    return formed and all(
        HEADER_NAME.fullmatch(name) and HEADER_VALUE.fullmatch(value) for name, value in request.headers.items()
    )


def _place_words(request):
    """The words by which curl finds the server, and the host of its URL."""
    server = _server_shown(request)
    if not request.host:
        return ["--http1.0", "-H", "Host:"], server
    if PLAIN_HOST.fullmatch(request.host) and not request.host.split(".")[-1].isdigit():
        return ["--resolve", f"{request.host}:{request.port}:{server}"], request.host
    return ["-H", f"Host: {request.host}{_port_shown(request)}"], server


def _header_words(request):
    """The headers of a request. Those that curl would add are taken away where it has none."""
    named = {name.lower() for name in request.headers}
    lines = [f"{name}:" for name in ("User-Agent", "Accept") if name.lower() not in named]
    lines += [f"{name}: {value}" if value.strip() else f"{name};" for name, value in request.headers.items()]
    return [word for line in lines for word in ("-H", line)]


def curl_line(request):
    """The shell line that sends a request, in printable bytes; None where there is none."""
    if not _is_formed(request) or request.port == 0:
        return None
    place, host = _place_words(request)
    method = ["--head"] if request.method == "HEAD" else ["-X", request.method]
    glob = ["--globoff"] if re.search(r"[\[\]{}]", request.target) or ":" in host else []
    url = f"{request.scheme}://{host}:{request.port}{request.target}"
    version = ["--http1.1"] if request.scheme == "https" and request.host else []
    words = ["curl", "-i", "--path-as-is", *version, *glob, *place, *method, *_header_words(request)]
    line = " ".join([shlex.quote(word) for word in words] + [_quoted(url)])
    return line if len(line) <= LONGEST_LINE else None


def _quoted(text):
    """A text between quotes, also where a shell wouldn't need them."""
    quoted = shlex.quote(text)
    return quoted if quoted != text else f"'{text}'"


def ask_line(request, servers=()):
    """The line that asks hc for a request with its trail, or for its chain of redirects among servers; None where there
    is none."""
    asked = {"do": "follow", "hosts": list(servers)} if servers else {"do": "ask", "trail": True}
    line = json.dumps({**asked, **vars(request)})
    return line if _is_formed(request) and len(line) <= LONGEST_LINE else None


def curl_notes(request):
    """What the shell line doesn't say of the request."""
    notes = [
        say(
            "curl can't choose the client: hc's request comes from {}. Where addresses decide, send it from a client"
            " that they treat alike.",
            request.client,
        )
    ]
    if request.server == SERVER:
        notes.append(
            say("{} stands for the server where no address is given: put your server's own in its place.", SERVER)
        )
    if not request.host:
        notes.append(say("Without a Host header curl speaks HTTP/1.0, and hc HTTP/1.1."))
    if any(value != value.strip() for value in request.headers.values()):
        notes.append(say("Blanks around a header's value don't arrive."))
    return notes


# ---- sets


def set_words(value, depth=0):
    """A SET of texts in words, behind the name of what is in it."""
    if depth > DEEPEST or not isinstance(value, dict) or len(value) != 1:
        return say("of a set")
    (kind, of), *_ = value.items()
    if kind == "any":
        return say("of any kind")
    if kind in ("literal", "pattern") and isinstance(of, str):
        return say("equal to {}" if kind == "literal" else "matching {}", of)
    if kind in ("and", "or", "minus") and isinstance(of, list) and of:
        parts = [set_words(part, depth + 1) for part in of[:DEEPEST]]
        if kind == "minus":
            return ("(",) + parts[0] + (" but not ",) + parts[-1] + (")",)
        return ("(",) + listed(parts, kind) + (")",)
    return say("of a set")


# ---- claims


def place_in(fields):
    """The place that a claim names: its path as bytes and its line; or None."""
    path, line = fields.get("file"), fields.get("line")
    return (data_of(path), line) if isinstance(path, str) and type(line) is int else None


def _is_server(own):
    return (
        isinstance(own, dict)
        and all(isinstance(own.get(name), str) for name in ("scheme", "host"))
        and type(own.get("port")) is int
    )


def servers_of(claim):
    """The own servers of a claim on chains; none where it is another one, or has no such form."""
    hosts = claim.get("hosts") if isinstance(claim, dict) and claim.get("kind") == "ends" else None
    return hosts if isinstance(hosts, list) and all(_is_server(own) for own in hosts) else []


def claim_words(claim):
    """What a claim says of the requests of its scope; None where it has no such form."""
    if not isinstance(claim, dict):
        return None
    kind, place, servers = claim.get("kind"), place_in(claim), servers_of(claim)
    if servers:
        named = [say("{}", f"{own['scheme']}://{own['host']}:{own['port']}") for own in servers]
        return say("whenever a request of the scope is redirected among ") + listed(named) + (", that comes to an end",)
    if kind == "stops":
        return say("no request of the scope runs into a limit of rounds or of restarts")
    if kind == "shadowed" and place:
        return say("the `RewriteRule` of {} matches for no request of the scope", place_shown(*place))
    if kind == "guarded" and place:
        return say(
            "whenever a request of the scope is served a file or a directory {}, the `Require` of {} was asked",
            set_words(claim.get("target")),
            place_shown(*place),
        )
    return None


def _asked_of(scope):
    methods = scope.get("methods", ["GET"])
    words = [say("{}", method) for method in methods if isinstance(method, str)] if isinstance(methods, list) else []
    texts = [scope.get(name, default) for name, default in DEFAULTS.items() if name in ("scheme", "server", "host")]
    scheme, server, host = (text if isinstance(text, str) else "?" for text in texts)
    port = f":{scope['port']}" if type(scope.get("port")) is int else ""
    return listed(words, "or") + say(" requests to {} (server {})", f"{scheme}://{host}{port}", server)


def scope_words(scope):
    """A scope in words; None where it is none."""
    if not isinstance(scope, dict):
        return None
    client = scope.get("client")
    said = [_asked_of(scope), say("clients of {}", client) if isinstance(client, str) else ("any client",)]
    for name, many in (("path", "paths"), ("query", "queries")):
        every = scope.get(name, {"any": True}) == {"any": True}
        said.append((f"any {name}",) if every else (f"{many} ",) + set_words(scope[name]))
    return listed([*said, ("any headers",)])


# ---- cells


def cell_words(cell):
    """Where a cell of an invariant stands and what it has, in words; None where it has no such form."""
    if not isinstance(cell, dict) or not isinstance(cell.get("at"), str):
        return None
    places = {"pass": say("where a pass begins"), "server": say("where the server's rules begin a further round")}
    place = places.get(cell["at"]) or say("where the rules of {} begin a further round", cell["at"])
    has = [say(f"{name} {{}}", cell[name]) for name in ("rank", "round") if type(cell.get(name)) is int]
    slots = cell["slots"] if isinstance(cell.get("slots"), dict) else {}
    has += [say("{} ", name) + set_words(value) for name, value in list(slots.items())[:DEEPEST]]
    return place + ((", with ",) + listed(has) if has else ())


def cells_counted(fields):
    """How many cells a command gives, in words, or the empty text."""
    cells = fields.get("cells")
    return counted(len(cells), "cell") if isinstance(cells, list) else ""
