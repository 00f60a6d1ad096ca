#!/usr/bin/env bash
# Runs the proved program, and builds it first where a source is newer:
#
#     ./hc < examples/first.jsonl
#
# The words of the command line, the standard input and the exit status are the program's own. What
# the build does is told on the standard error. What it writes goes into logs, and the end of one is
# shown only where the build fails.
set -u

top=$(dirname -- "$(readlink -f -- "${BASH_SOURCE[0]}")")
app=$top/crates/hc_app
program=$app/out/hc_app
# Copies of the sources, and a log for each crate.
copies=$app/out/build

say() {
    printf 'hc: %s\n' "$*" >&2
}

# ---- the crates that the program stands on

declare -A below=()
needed=()

read_crates() {
    local name rest
    while IFS=: read -r name rest; do
        [[ $name == hc_* ]] && below[$name]=${rest%%#*}
    done < "$top/crates.txt"
}

# Adds a crate behind all those that it stands on. A library of the kit has no line.
need() {
    local name
    [[ -v below[$1] && " ${needed[*]} " != *" $1 "* ]] || return 0
    for name in ${below[$1]}; do
        need "$name"
    done
    needed+=("$1")
}

# The program is missing, or a source is newer. A folder counts too, so that a removed file is seen.
is_stale() {
    [[ -x $program ]] || return 0
    local sources=("$top/crates.txt") name part
    for name in "${needed[@]}"; do
        for part in src specs proofs; do
            [[ -d $top/crates/$name/$part ]] && sources+=("$top/crates/$name/$part")
        done
    done
    [[ -n $(find "${sources[@]}" -newer "$program" -print -quit) ]]
}

# ---- proofs side by side

# How many processes: one for each processor and 3 GiB of free memory.
processes() {
    local least
    least=$({
        nproc
        awk '/^MemAvailable:/ { print int($2 / (3 * 1024 * 1024)) }' /proc/meminfo
    } 2> /dev/null | sort -n | head -n 1)
    echo "$((least > 0 ? least : 1))"
}

# rt lets one process at a time work in a checkout, so each has a copy, and takes what others proved.
make_copies() {
    local slot name part
    rm -rf -- "$copies"
    for ((slot = 0; slot < $1; slot++)); do
        for name in "${needed[@]}"; do
            mkdir -p -- "$copies/$slot/crates/$name"
            printf '%s:%s\n' "$name" "${below[$name]}" >> "$copies/$slot/crates.txt"
            for part in src specs proofs; do
                [[ -d $top/crates/$name/$part ]] || continue
                cp -Rp -- "$top/crates/$name/$part" "$copies/$slot/crates/$name/" || return 1
            done
        done
    done
}

# Every crate that this one stands on is proved.
is_ready() {
    local name
    for name in ${below[$1]}; do
        [[ ! -v below[$name] || -v proved[$name] ]] || return 1
    done
}

# Proves the libraries, each once those below it are proved, at most so many at a time. Where fewer
# are ready than processors are free, one gets more of them.
prove_libraries() {
    local most=$1 libraries=("${needed[@]:0:${#needed[@]}-1}")
    local -A proved=() begun=() pids=() names=()
    local name slot free ready failed=
    while ((${#proved[@]} < ${#libraries[@]})); do
        ready=()
        for name in "${libraries[@]}"; do
            [[ -z $failed && ! -v begun[$name] ]] && is_ready "$name" && ready+=("$name")
        done
        free=$((most - ${#pids[@]}))
        ready=("${ready[@]:0:free}")
        for ((slot = 0; slot < most && ${#ready[@]} > 0; slot++)); do
            [[ -v pids[$slot] ]] && continue
            name=${ready[0]}
            (cd -- "$copies/$slot/crates/$name" && exec rt lib --jobs $((free / ${#ready[@]}))) \
                < /dev/null > "$copies/$name.log" 2>&1 9>&- &
            pids[$slot]=$! names[$slot]=$name begun[$name]=1
            free=$((free - free / ${#ready[@]}))
            ready=("${ready[@]:1}")
        done
        ((${#pids[@]} > 0)) || break
        say "${#proved[@]} of ${#needed[@]} crates are proved; at work: ${names[*]}"
        wait -n
        for slot in "${!pids[@]}"; do
            kill -0 "${pids[$slot]}" 2> /dev/null && continue
            name=${names[$slot]}
            if wait "${pids[$slot]}"; then proved[$name]=1; else failed=$name; fi
            unset "pids[$slot]" "names[$slot]"
        done
    done
    [[ -z $failed ]] || { tell_failed "$failed"; return 1; }
}

tell_failed() {
    tail -n 40 -- "$copies/$1.log" >&2
    say "$1 did not build; its log is $copies/$1.log"
}

# A failed build leaves no program, so that an old one never answers for new sources. The status of
# `rt run` tells nothing here, since it is the program's own, on an empty input.
build() {
    local start=$app/out/build.start most
    if ! command -v rt > /dev/null; then
        say "rt, the tool that proves and builds the program, is not on the PATH"
        return 1
    fi
    most=$(processes)
    say "proving and building the program, $most processes at a time; in a fresh checkout this takes two hours and more on four processors"
    rm -f -- "$program"
    touch -- "$start"
    make_copies "$most" && prove_libraries "$most" || return 1
    say "$((${#needed[@]} - 1)) of ${#needed[@]} crates are proved; at work: hc_app"
    (cd -- "$app" && exec rt run --jobs "$most") < /dev/null > "$copies/hc_app.log" 2>&1 9>&-
    if [[ ! -x $program ]]; then
        tell_failed hc_app
        return 1
    fi
    # The program counts as old as the build's start: a source that was changed meanwhile is newer.
    touch -r "$start" -- "$program"
    rm -rf -- "$copies"
}

read_crates
need hc_app
if is_stale; then
    mkdir -p -- "$app/out"
    # Of several launchers one builds, and the others wait for it.
    exec 9> "$app/out/build.lock"
    command -v flock > /dev/null && flock 9
    if is_stale && ! build; then
        exit 1
    fi
    exec 9>&-
fi

exec "$program" "$@"
