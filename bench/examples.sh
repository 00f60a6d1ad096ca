#!/usr/bin/env bash
# Compares the replies to each script of examples/ with those that stand beside it, and the program's stored input with
# these scripts, which it holds one behind another:
#
#     bench/examples.sh [PROGRAM]
#
# Nothing is built here.
source "$(dirname -- "$(readlink -f -- "$0")")/program.sh"
top=$(dirname -- "$bench")
failed=0
for script in "$top"/examples/*.jsonl; do
    name=$(basename -- "$script" .jsonl)
    if "$program" < "$script" | cmp -s - "$top/examples/$name.replies"; then
        printf 'PASS  %s\n' "$name"
    else
        printf 'FAIL  %s: another reply\n' "$name"
        failed=1
    fi
done

python3 - "$top" << 'PYTHON' || failed=1
import pathlib
import sys

top = pathlib.Path(sys.argv[1])
stored = {part: (top / "crates/hc_app" / part).read_text() for part in ("stdin", "stdout")}
for script in sorted((top / "examples").glob("*.jsonl")):
    if script.read_text() not in stored["stdin"] or script.with_suffix(".replies").read_text() not in stored["stdout"]:
        sys.exit(f"FAIL  the stored run has not {script.name}")
print("PASS  the stored run")
PYTHON
exit "$failed"
