#!/usr/bin/env bash
# Compares the summaries of generated scripts with those of a plain program:
#
#     bench/generate.sh [PROGRAM [SEEDS]]
#
# For each of so many seeds (20), and for a few large ones, `--generate SEED` has to write the line that the program below computes. It knows
# no more of httpd than what the three texts of the script do. Nothing is built here.
source "$(dirname -- "$(readlink -f -- "$0")")/program.sh"

python3 - "$program" "${2:-20}" << 'PYTHON'
import json
import subprocess
import sys

DIRECTORIES, FILES, TURNS = 50, 200, 2_000
REWRITES, GRANTS, NETWORK = 0, 1, 2
LARGE = (2**32, 2**63, 2**64 - 1)


def draws(x):
    """A function that draws a number below n."""

    def draw(n):
        nonlocal x
        x = (x * 6364136223846793005 + 1442695040888963407) % 2**64
        return x // 2**33 % n

    return draw


def outcome(text, leaf_is_listed, there):
    """What a file of a directory with this text receives: its `.htaccess` lets nobody in, or everybody, or makes `g` an `f`."""
    if text == NETWORK:
        return "denied"
    return "files" if there and (leaf_is_listed or text == REWRITES) else "missing"


def summary(seed):
    draw = draws(seed)
    homes = [draw(DIRECTORIES) for _ in range(FILES)]
    texts = [draw(3) for _ in range(DIRECTORIES)]
    counts = dict.fromkeys(("asks", "denied", "evaluations", "files", "missing", "no_memory"), 0)
    kept = set()
    for _ in range(TURNS):
        if draw(10) == 0:
            directory, text = draw(DIRECTORIES), draw(3)
            if text != texts[directory]:
                kept = {ask for ask in kept if ask[0] != directory}
            texts[directory] = text
            continue
        ask = draw(DIRECTORIES), draw(2), draw(FILES)
        directory, leaf, file = ask
        counts["asks"] += 1
        counts[outcome(texts[directory], leaf == 0, homes[file] == directory)] += 1
        counts["evaluations"] += ask not in kept
        kept.add(ask)
    return json.dumps({"summary": counts}, sort_keys=True, separators=(",", ":")) + "\n"


def main():
    program, seeds = sys.argv[1], [*range(int(sys.argv[2])), *LARGE]
    wrong = 0
    for seed in seeds:
        wanted = summary(seed)
        run = subprocess.run([program, "--generate", str(seed)], stdin=subprocess.DEVNULL, capture_output=True, text=True)
        if run.returncode or run.stdout != wanted:
            wrong += 1
            print(f"FAIL  {seed}: {run.stdout.strip()} where {wanted.strip()} is wanted")
    print(f"{'FAIL' if wrong else 'PASS'}  {len(seeds) - wrong} of {len(seeds)} summaries are those of the plain program")
    sys.exit(1 if wrong else 0)


main()
PYTHON
