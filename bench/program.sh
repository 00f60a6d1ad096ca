# For the scripts of this folder, which read it first. It sets `program`, the program that they run:
# their first word, or else the one that is built. `bench` is this folder, where Python finds
# `measure`, and `room` is a folder that goes away at their end.
set -euo pipefail

bench=$(dirname -- "$(readlink -f -- "${BASH_SOURCE[0]}")")
export PYTHONPATH=$bench PYTHONDONTWRITEBYTECODE=1
program=${1:-$(dirname -- "$bench")/crates/hc_app/out/hc_app}

if [[ ! -x $program ]]; then
    printf '%s: there is no program at %s\n' "$(basename -- "$0")" "$program" >&2
    exit 2
fi

room=$(mktemp -d)
trap 'rm -rf -- "$room"' EXIT
