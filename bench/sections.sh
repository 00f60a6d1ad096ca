#!/usr/bin/env bash
# Times asks over a main file of many virtual hosts and sections, and what a section takes of them:
#
#     bench/sections.sh [PROGRAM [ASKS]]
#
# The main file has 1,000 virtual hosts, each with a port of its own and ten sections, and 1,000 sections of the main
# server. Of each a third is `<Directory>`, `<Files>` and `<Location>`, and none applies. So many asks (2,000) go to
# the hosts in turn. Then a file 200 directories deep is asked for, so that each `<Directory>` is tested in all of them,
# under 100 hosts: as they are, where the host that answers has 1,010 sections, and where each other one has 110. A
# `check` stands before each ask and reads alone; what an ask takes beyond reading is what it takes more than
# that check. What it takes under a main file of one line is the walk and the reply, and the rest tests sections.
# Times are the program's own on a processor, as Linux tells them, and medians count. Nothing is built here.
source "$(dirname -- "$(readlink -f -- "$0")")/program.sh"

python3 - "$program" "${2:-2000}" << 'PYTHON'
import json
import re
import statistics
import subprocess
import sys
import time

MAIN_FILE = "/etc/httpd/conf/httpd.conf"
ROOT = "DocumentRoot /srv\n"
HOSTS = 1_000
DEEP_HOSTS = 100
FIRST_PORT = 1_024
OF_MAIN = 1_000
OF_HOST = 10
MORE = 1_000
MORE_OF_OTHERS = 100
DEPTH = 200
DEEP_ASKS = 100

# How much longer twice as many tests may take, and as many under other hosts of eleven times as many sections.
TWICE = (1.6, 2.4)
SAME = 1.2

FLAT = "/page/of/the/site/index.html"
DEEP = "/d" * DEPTH + "/index.html"
CHECK = {"do": "check"}


def section(at):
    """A section that applies to no file that is asked for."""
    name, argument = (
        ("Directory", f"/srv/none{at}"),
        ("Files", f"none{at}.*"),
        ("Location", f"/none{at}"),
    )[at % 3]
    return f'<{name} "{argument}">\nOptions -Indexes\n</{name}>\n'


def sections(count):
    return "".join(section(at) for at in range(count))


def main_text(hosts, of_host, of_others):
    """A main file of so many hosts; the first one has so many sections, and each other one so many."""
    parts = [ROOT, sections(OF_MAIN)]
    for at in range(hosts):
        parts.append(f"<VirtualHost *:{FIRST_PORT + at}>\nServerName h{at}.example\n")
        parts.append(sections(of_others if at else of_host) + "</VirtualHost>\n")
    return "".join(parts)


def tests(count, target):
    """How often so many sections are tested: each `<Directory>` in the root, in `/srv` and in what is below it."""
    directories = len(range(0, count, 3))
    return directories * (1 + target.count("/")) + count - directories


def ask(target, port):
    return {"do": "ask", "port": port, "target": target}


def file_reply(target):
    return '{"outcome":{"file":{"info":"","path":"/srv%s"}}}\n' % target


class Session:
    """A session with a main file, and the files that are asked for."""

    def __init__(self, program, text):
        self.child = subprocess.Popen([program], stdin=subprocess.PIPE, stdout=subprocess.PIPE)
        for path, held in ((MAIN_FILE, text), ("/srv" + FLAT, ""), ("/srv" + DEEP, "")):
            self.microseconds({"do": "put", "path": path, "text": held}, '{"done":"put"}\n')

    def spent(self):
        """The processor time so far in microseconds, which the kernel tells once the program waits for a command."""
        time.sleep(0.001)
        with open(f"/proc/{self.child.pid}/schedstat", encoding="ascii") as told:
            return int(told.read().split()[0]) / 1e3

    def microseconds(self, command, reply):
        """The processor time of a command."""
        before = self.spent()
        self.child.stdin.write((json.dumps(command) + "\n").encode("ascii"))
        self.child.stdin.flush()
        given = self.child.stdout.readline()
        if given != reply.encode("ascii"):
            sys.exit(f"FAIL  {command} was answered {given}")
        return self.spent() - before

    def end(self):
        """The peak memory in KiB."""
        with open(f"/proc/{self.child.pid}/status", encoding="ascii") as told:
            peak = int(re.search(r"VmHWM:\s*(\d+)", told.read())[1])
        self.child.stdin.close()
        if self.child.wait():
            sys.exit(f"FAIL  the program ended with status {self.child.returncode}")
        return peak


def measured(program, text, target, count):
    """The microseconds of reading, those of an ask beyond it, and the peak memory in KiB. Hosts take turns."""
    session = Session(program, text)
    hosts = text.count("</VirtualHost>")
    config = '{"config":{"hosts":%d}}\n' % hosts
    reading, beyond = [], []
    for at in range(count):
        port = FIRST_PORT + (at % hosts if target == FLAT and hosts else 0)
        # another main file and back: it is read anew
        for path in ("/other", MAIN_FILE):
            session.microseconds({"do": "main", "path": path}, '{"done":"main"}\n')
        reading.append(session.microseconds(CHECK, config))
        beyond.append(session.microseconds(ask(target, port), file_reply(target)))
    return statistics.median(reading), statistics.median(beyond), session.end()


def tell(what, testing, tested):
    print(f"{what:<18}{testing:10.2f} us  {tested} tests  {testing * 1e3 / tested:.1f} ns a section tested")


def usual(program, asks):
    """Asks of all hosts for a usual file."""
    text = main_text(HOSTS, OF_HOST, OF_HOST)
    _, walked, _ = measured(program, ROOT, FLAT, asks)
    reading, beyond, peak = measured(program, text, FLAT, asks)
    print(f"an ask            {reading + beyond:10.2f} us  of {len(text)} bytes  {peak} KiB")
    print(f"  reading         {reading:10.2f} us")
    print(f"  beyond          {beyond:10.2f} us")
    print(f"    walk, reply   {walked:10.2f} us")
    tell("    sections", beyond - walked, tests(OF_MAIN, FLAT) + tests(OF_HOST, FLAT))


def deep(program, what, walked, of_host, of_others):
    """Asks of the first host for the deep file: the microseconds beyond reading and this walk."""
    _, beyond, _ = measured(program, main_text(DEEP_HOSTS, of_host, of_others), DEEP, DEEP_ASKS)
    tell(what, beyond - walked, tests(OF_MAIN, DEEP) + tests(of_host, DEEP))
    return beyond - walked


def judge(checks):
    for holds, what in checks:
        print(f"{'PASS' if holds else 'FAIL'}  {what}")
    sys.exit(0 if all(holds for holds, _ in checks) else 1)


def main():
    program, asks = sys.argv[1], int(sys.argv[2])
    usual(program, asks)
    _, walked, _ = measured(program, ROOT, DEEP, DEEP_ASKS)
    before = deep(program, "a deep file", walked, OF_HOST, OF_HOST)
    own = deep(program, "  more of its own", walked, OF_HOST + MORE, OF_HOST) / before
    other = deep(program, "  more of others", walked, OF_HOST, OF_HOST + MORE_OF_OTHERS) / before
    judge([
        (TWICE[0] <= own <= TWICE[1], f"twice the sections take {own:.2f} times as long, {TWICE[0]} to {TWICE[1]}"),
        (other <= SAME, f"eleven times the sections of other hosts {other:.2f} times, at most {SAME}"),
    ])


main()
PYTHON
