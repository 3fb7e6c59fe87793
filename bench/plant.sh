#!/usr/bin/env bash
# Plants wrong bodies, tables and definitions in a copy of the repository, one at a time, and says which crate's proof refuses each,
# or which program's run where no contract can.
#
# usage: bench/plant.sh [WORD ..]      those of bench/plants.txt whose names hold one of the words; all without any
#
# To add one, write a block in bench/plants.txt. The crates below are built once. Each plant takes the proofs of the crates that it
# names, a minute or two, or a run of the programs that it names, unproved, as long, or of the tests in tools/tests that it names, for
# which ./vet builds the program; each is first run with nothing planted.
# The last line is 'N refused, M not refused, K cannot be planted'; the status is 0 only where all were refused.
set -u
top=$(cd "$(dirname "$0")/.." && pwd)
room=$(mktemp -d)
trap 'rm -rf "$room"' EXIT

# Splits the plants into folders of the room: name, crates, and a file of changes each.
split() {
    printf '%s\n' "$@" > "$room/words"
    awk -v room="$room" '
        BEGIN { while ((getline word < (room "/words")) > 0) words[++m] = word }
        /^plant: / {
            name = substr($0, 8); taken = 0
            for (k = 1; k <= m; k++) if (words[k] == "" || index(name, words[k])) taken = 1
            if (taken) { at = sprintf("%s/plants/%03d", room, ++n); system("mkdir -p " at); print name > (at "/name") }
            next
        }
        !taken { next }
        /^crates: / { print substr($0, 9) > (at "/crates"); next }
        /^runs: / { print substr($0, 7) > (at "/runs"); next }
        /^tests: / { print substr($0, 8) > (at "/runs"); next }
        /^(file|old|new): / { print > (at "/changes") }
    ' "$top/bench/plants.txt"
}

# Makes the changes of a plant in the copy, where each old text stands once.
planted() {
    python3 - "$1/changes" "$room/copy" <<'EOF'
import sys
file = old = None
for line in open(sys.argv[1], encoding="utf-8").read().splitlines():
    word, text = line.split(": ", 1)
    if word == "file":
        file = f"{sys.argv[2]}/{text}"
    elif word == "old":
        old = text
    else:
        content = open(file, encoding="utf-8").read()
        if content.count(old) != 1:
            sys.exit(f"'{old}' stands {content.count(old)} times in {file}")
        open(file, "w", encoding="utf-8").write(content.replace(old, text))
EOF
}

# Puts back what a plant has changed.
restored() {
    local file
    sed -n 's/^file: //p' "$1/changes" | while read -r file; do
        cp "$top/$file" "$room/copy/$file"
    done
}

# The crate whose proof refuses what is planted, or nothing.
refused_by() {
    local name
    for name in "$@"; do
        (cd "$room/copy/crates/$name" && rt check > "$room/log" 2>&1) || { printf '%s' "$name"; return; }
    done
}

# Runs a program, unproved, over its data with its words. 0: it prints what is due and ends as is due; 1: it does not; 2: it did not
# run. Why stands in the log.
ran() (
    cd "$room/copy/crates/$1" || return 2
    data=()
    while read -r file; do data+=(--data "${file#data/}=$file"); done < <(find data -type f)
    mapfile -t words < args
    rt try "${data[@]}" -- "${words[@]}" > "$room/printed" 2> "$room/log"
    ended=$(sed -n 's/^run=ended status=\([0-9]*\).*/\1/p' "$room/log")
    due=$(cat status 2> /dev/null || printf 0)
    [ -n "$ended" ] || return 2
    if [ "$ended" != "$due" ]; then
        printf 'it ends with %s in place of %s\n' "$ended" "$due" > "$room/log"
        return 1
    fi
    cmp -s stdout "$room/printed" && return 0
    printf 'it prints something else\n' > "$room/log"
    return 1
)

# Runs tests of tools/tests, which ask the program of the copy. The same statuses.
tested() (
    cd "$room/copy/tools" || return 2
    python3 -m unittest "tests.$1" > "$room/log" 2>&1 || { grep -q '^FAIL: ' "$room/log" && return 1; return 2; }
    ! grep -q skipped "$room/log" || return 2
)

# Runs a program, or tests, which have a dot in their name.
put_to_run() { case $1 in *.*) tested "$1" ;; *) ran "$1" ;; esac; }

# What the log says of a refusal, in one line.
told() {
    { grep -m 1 -E '^fn .*: (no proof|not proved)|error:' "$room/log" || tail -n 1 "$room/log"; } | cut -c 1-240
}

# Whether each of the programs prints and ends as is due with nothing planted, and each of the tests passes.
are_sound() {
    local name
    for name in "$@"; do
        [ -n "${sound[$name]:-}" ] || { put_to_run "$name" && sound[$name]=1; } || return 1
    done
}

# The program that prints something else or ends otherwise with what is planted, or the test that fails, or nothing.
failed_run() {
    local name
    for name in "$@"; do
        put_to_run "$name"
        [ $? -eq 1 ] && { printf '%s' "$name"; return; }
    done
}

split "$@"
mkdir "$room/copy"
(cd "$top" && tar -cf - --exclude=out crates crates.txt HANDLES vet tools examples) | tar -xf - -C "$room/copy"
declare -A sound=()
refused=0 passed=0 lost=0
last=
for plant in "$room"/plants/*/; do
    [ -d "$plant" ] || continue
    [ -n "$last" ] && restored "$last"
    last=$plant
    name=$(cat "$plant/name")
    crates=() runs=()
    [ -e "$plant/crates" ] && read -r -a crates < "$plant/crates"
    [ -e "$plant/runs" ] && read -r -a runs < "$plant/runs"
    if ! { are_sound "${runs[@]}" && planted "$plant"; }; then
        printf '%s: CANNOT BE PLANTED\n' "$name"
        lost=$((lost + 1))
        continue
    fi
    by=$(refused_by "${crates[@]}")
    if [ -n "$by" ]; then
        printf '%s: refused by %s: %s\n' "$name" "$by" "$(told)"
        refused=$((refused + 1))
        continue
    fi
    by=$(failed_run "${runs[@]}")
    if [ -n "$by" ]; then
        printf '%s: refused by the run of %s: %s\n' "$name" "$by" "$(told)"
        refused=$((refused + 1))
    else
        printf '%s: NOT REFUSED\n' "$name"
        passed=$((passed + 1))
    fi
done
printf '%s refused, %s not refused, %s cannot be planted\n' "$refused" "$passed" "$lost"
[ "$refused" -gt 0 ] && [ "$passed" -eq 0 ] && [ "$lost" -eq 0 ]
