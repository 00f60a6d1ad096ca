#!/usr/bin/env bash
# Times one match of usual patterns, each on a text that matches and on one that fails, in nanoseconds:
#
#     bench/matches.sh [ROUNDS]
#
# It proves and builds a small program over hc_pattern and hc_match in a copy of these crates. Where a C
# compiler finds PCRE2, the same is asked of it, without its just-in-time compiler, and the ratio stands
# beside. The programs take turns, and of so many rounds (9, or ROUNDS) the medians count. The last
# column is the time of reading the pattern.
set -euo pipefail

bench=$(dirname -- "$(readlink -f -- "$0")")
crates=$(dirname -- "$bench")/crates
room=$(mktemp -d)
trap 'rm -rf -- "$room"' EXIT

mkdir -p "$room/crates/matches/src"
for crate in hc_base hc_pattern hc_ways hc_match; do
    cp -a -- "$crates/$crate" "$room/crates/"
done
cat > "$room/crates.txt" << 'CRATES'
hc_base:
hc_pattern: hc_base
hc_ways: hc_base hc_pattern
hc_match: hc_base hc_pattern hc_ways memchr
matches: hc_base hc_match hc_pattern
CRATES
cat > "$room/crates/matches/src/main.rt" << 'PROGRAM'
//! Matches a text by a pattern so many times, or reads the pattern so many times: the words are
//! `match` or `read`, how many times, the pattern and the text.
#![tactic(auto)]

use hc_base::NoMemory;
use hc_match::first_match;
use hc_pattern::{Pat, parse_pattern};
use std::alloc::Global;
use std::env;
use std::process::ExitCode;
use std::rt::Env;

// The words of the command line, with the program's name.
fn words_of(rt: &(impl Env + AllocGlobal)) -> Result<Vec<String>, NoMemory> {
    let Ok(args) = env::args(rt) else {
        return Err(NoMemory);
    };
    let mut words = Vec::new(rt.alloc());
    for word in args {
        words.push(word)?;
    }
    Ok(words)
}

// How many of the matches are one.
fn matches(alloc: Global, pat: &Pat, text: &[u8], times: u32) -> Result<u32, NoMemory> {
    let mut found = 0u32;
    for _ in 0..times {
        if first_match(alloc, pat, text)?.is_some() {
            found = found.saturating_add(1);
        }
    }
    Ok(found)
}

// How many of the readings give a pattern.
fn readings(alloc: Global, pattern: &[u8], times: u32) -> u32 {
    let mut found = 0u32;
    for _ in 0..times {
        if parse_pattern(alloc, pattern, false).is_ok() {
            found = found.saturating_add(1);
        }
    }
    found
}

// What the words ask for.
fn counted(alloc: Global, words: &[String]) -> Result<u32, NoMemory> {
    let [_, kind, times, pattern, text] = words else {
        return Err(NoMemory);
    };
    let Ok(times) = times.as_str().parse::<u32>() else {
        return Err(NoMemory);
    };
    if kind.as_str() == "read" {
        return Ok(readings(alloc, pattern.as_bytes(), times));
    }
    let Ok(pat) = parse_pattern(alloc, pattern.as_bytes(), false) else {
        return Err(NoMemory);
    };
    matches(alloc, &pat, text.as_bytes(), times)
}

fn main(rt: HostRuntime) -> ExitCode {
    let Ok(words) = words_of(&rt) else {
        return ExitCode::from(1);
    };
    let Ok(found) = counted(rt.alloc(), &words) else {
        return ExitCode::from(1);
    };
    let _ = println!(rt; "{found}");
    ExitCode::from(0)
}
PROGRAM

if ! (cd "$room/crates/matches" && rt run -- match 1 a a) > "$room/built" 2>&1; then
    tail -n 20 -- "$room/built" >&2
    exit 1
fi
peer=
if cc -O2 -o "$room/peer" "$bench/peers/pcre2_matches.c" -lpcre2-8 2> "$room/refused"; then
    peer=$room/peer
fi
uptime

PYTHONDONTWRITEBYTECODE=1 python3 - "$room/crates/matches/out/matches" "$peer" "${1:-9}" << 'PYTHON'
import statistics
import subprocess
import sys
import time

TIMES = 200_000

# A pattern, a text that matches, and one that fails.
ROWS = (
    (r"^/index\.php$", "/index.php", "/wp-content/themes/plain/styles/main.css"),
    (r"^/(wp-admin|wp-includes|wp-content)/", "/wp-content/themes/plain/styles/main.css", "/wp-contents/themes/plain/styles/main.cs"),
    (r"\.(css|js|png|jpg|gif|ico|svg|woff2)$", "/wp-content/themes/plain/style/mains.css", "/public/files/reports/2024/overview.html"),
    (r"^/([a-z0-9_-]+)/([0-9]{4})/([0-9]{2})(/.*)?$", "/news/2024/11/a-title-of-a-long-article/", "/shop/2024/1x/a-title-of-a-long-article/"),
    (r"^/.*secret", "/public/files/secret/2024/overview.html0", "/public/files/reports/2024/overview.html"),
    (r"^/(.*/)?\.ht[^/]*$", "/public/files/reports/2024/.htpasswd-old", "/public/files/reports/2024/overview.html"),
    (r"^/x/(.*)$", "/x/public/files/reports/2024/overview.ht", "/y/public/files/reports/2024/overview.ht"),
    (r"^(.*)$", "/public/files/reports/2024/overview.html", None),
    (r"^/blog/([^/]+)/?$", "/blog/a-title-of-a-long-article-of-today/", "/blog/public/files/reports/2024/a-title/"),
    (r"/$", "/shop/public/files/reports/2024/a-title/", "/public/files/reports/2024/overview.html"),
)


def seconds(words, wanted):
    """How long a run takes that prints this number."""
    began = time.perf_counter()
    told = subprocess.run(words, stdout=subprocess.PIPE, check=True, text=True).stdout
    took = time.perf_counter() - began
    if told.strip() != str(wanted):
        sys.exit(f"FAIL  {words[-2:]}: {told.strip()} in place of {wanted}")
    return took


def nanoseconds(words, pattern, text, found):
    """The time of one of so many, less what a run takes without them."""
    whole = seconds([*words, str(TIMES), pattern, text], TIMES if found else 0)
    return (whole - seconds([*words, "0", pattern, text], 0)) / TIMES * 1e9


def medians(programs, pattern, text, found, rounds):
    times = [[nanoseconds(words, pattern, text, found) for words in programs] for _ in range(rounds)]
    return [statistics.median(column) for column in zip(*times)]


program, peer, rounds = sys.argv[1], sys.argv[2], int(sys.argv[3])
programs = [[program, "match"], *([[peer]] if peer else [])]
for pattern, *texts in ROWS:
    cells = [f"{pattern:48}"]
    for text, found in zip(texts, (True, False)):
        if text is None:
            cells.append(" " * (21 if peer else 7))
            continue
        took = medians(programs, pattern, text, found, rounds)
        cells.append(f"{took[0]:7.0f}" + (f"{took[1]:7.0f} ({took[0] / took[1]:.2f})" if peer else ""))
    cells.append(f"{medians([[program, 'read']], pattern, '', True, rounds)[0]:8.0f}")
    print(" ".join(cells), flush=True)
PYTHON
