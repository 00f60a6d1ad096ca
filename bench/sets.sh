#!/usr/bin/env bash
# Times work on sets of texts, and the same questions by libfa where it is installed (Debian: libaugeas-dev):
#
#     bench/sets.sh
#
# The program of bench/sets is proved and built over a copy of the crates that it needs. A question
# compiles two patterns, takes the first without the second and both, reduces each, and asks for the
# inclusion and a least text. Five runs each in turn, and the median counts.
set -euo pipefail

bench=$(dirname -- "$(readlink -f -- "$0")")
top=$(dirname -- "$bench")
room=$(mktemp -d)
trap 'rm -rf -- "$room"' EXIT

crates=(hc_base hc_dfa hc_pattern hc_ways hc_pat_lang)
mkdir -p -- "$room/crates/hc_sets/src"
for crate in "${crates[@]}"; do
    cp -a -- "$top/crates/$crate" "$room/crates/"
    grep "^$crate:" "$top/crates.txt" >> "$room/crates.txt"
done
echo 'hc_sets: hc_base hc_dfa hc_pattern hc_pat_lang' >> "$room/crates.txt"
cp -- "$bench/sets/main" "$room/crates/hc_sets/src/main.rt"
if ! (cd -- "$room/crates/hc_sets" && rt run -- 0 matched) > "$room/built" 2>&1; then
    tail -n 20 -- "$room/built" >&2
    exit 2
fi

peer=
if cc -O2 -o "$room/peer" "$bench/peers/sets.c" -lfa 2> "$room/peer.log"; then
    peer=$room/peer
else
    echo 'libfa is not installed: no ratio'
fi

python3 - "$room/crates/hc_sets/out/hc_sets" "$peer" << 'PYTHON'
import statistics
import subprocess
import sys

PROGRAM, PEER = sys.argv[1:]
RUNS = 5
ROUNDS = 40

# Each pattern, and for libfa the texts that it is found in.
PATTERNS = {
    r"^/index\.php$": r"/index\.php",
    "^/(wp-admin|wp-includes|wp-content)/": "/(wp-admin|wp-includes|wp-content)/(.|\n)*",
    r"\.(css|js|png|jpg|gif|ico|svg|woff2)$": r"(.|\n)*\.(css|js|png|jpg|gif|ico|svg|woff2)".replace(r"\n", "\n"),
    "^/([a-z0-9_-]+)/([0-9]{4})/([0-9]{2})(/.*)?$": "/([a-z0-9_-]+)/([0-9]{4})/([0-9]{2})(/(.|\n)*)?",
    "^/.*secret": "/(.|\n)*secret(.|\n)*",
    r"^/(.*/)?\.ht[^/]*$": "/((.|\n)*/)?\\.ht[^/]*",
    "^/(a|b|ab|ba)*c(d|e){1,12}": "/(a|b|ab|ba)*c(d|e){1,12}(.|\n)*",
}
LETTERS = "".join(chr(97 + at * at % 26) for at in range(4_000))
WORK = {
    "4,000 times one byte": ["1", "matched", "a" * 4_000],
    "4,000 plain bytes": ["1", "matched", LETTERS],
    "rests of 512 states": ["1", "prefix", "^.*a.{8}$", "^a$"],
    "fronts of 512 states": ["1", "suffix", "^.*a.{8}$", "^a$"],
    "rests of 2,048 states": ["1", "prefix", "^.*a.{10}$", "^a$"],
    "fronts of 2,048 states": ["1", "suffix", "^.*a.{10}$", "^a$"],
}


def run(words):
    """The microseconds and the answer of one run."""
    try:
        told = subprocess.run(words, capture_output=True, check=True, text=True, timeout=60).stdout.split()
    except subprocess.TimeoutExpired:
        return 60e6, "no answer"
    return float(told[0]), told[1]


def median(runs):
    return statistics.median(microseconds for microseconds, _ in runs)


questions = ROUNDS * len(PATTERNS) ** 2
ours, theirs = [], []
for _ in range(RUNS):
    ours.append(run([PROGRAM, str(ROUNDS), "questions", *PATTERNS]))
    if PEER:
        theirs.append(run([PEER, str(ROUNDS), *PATTERNS.values()]))
print(f"a question: {median(ours) / questions:.0f} microseconds, {ours[0][1]} of {len(PATTERNS) ** 2} are yes")
if PEER:
    print(f"by libfa: {median(theirs) / questions:.0f} microseconds, {theirs[0][1]} are yes")
    print(f"ratio: {median(ours) / median(theirs):.2f}")
for pattern in PATTERNS:
    compiled = [run([PROGRAM, "200", "matched", pattern]) for _ in range(RUNS)]
    print(f"{pattern}: {median(compiled) / 200:.0f} microseconds, {compiled[0][1]} states")
for name, words in WORK.items():
    microseconds, states = run([PROGRAM, *words])
    print(f"{name}: {microseconds / 1e3:.1f} ms, {states} states")
PYTHON
