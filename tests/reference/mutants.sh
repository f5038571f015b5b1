#!/usr/bin/env bash
# Puts each mistake of mutants/ into a copy of the reference, one at a time, and
# demands that the comparison notices it. Without arguments the mistaken
# reference is compared with the right one; otherwise with the given programs.
#
# usage: mutants.sh [--replay "CMD" --list "CMD" --typed "CMD" --assemble "CMD" --lister "CMD" --cases "CMD" --lists_replay "CMD" --to_card "CMD" --from_card "CMD" --rescue_list "CMD" --valve_replay "CMD" --seats_replay "CMD"]
set -euo pipefail

here=$(cd "$(dirname "$0")" && pwd)
work=$(mktemp -d)
trap 'rm -rf "$work"' EXIT

# The fixed scripts have about 133,000 answers, so this is some random ones more.
amount=(--answers 151000 --lists 5 --inputs 5 --sums 50 --evenings 20 --indexes 20 --cards 20 --rescues 20 --valves 20 --seats 20)

# A mistake may well make a number overflow; that is to show as a difference
# in the transcript, not as a reference that stops.
export CARGO_PROFILE_DEV_OVERFLOW_CHECKS=false
export CARGO_PROFILE_DEV_DEBUG=false
# Wherever else the caller may have things built.
export CARGO_TARGET_DIR=$work/target

build() {
    (cd "$work" && cargo build --offline --quiet "$@")
}

# Compares whatever reference was built last with the programs.
compare() {
    local programs=() name
    for name in "${names[@]}"; do
        programs+=("--$name" "${commands[$name]}")
    done
    "$work/target/debug/compare" "${programs[@]}" "${amount[@]}"
}

# The value of one field of a mutant's file.
field() {
    sed -n "s/^$1: //p" "$2"
}

# Copies $1 to $2 with the line $3 replaced by $4; fails unless it occurs once.
replace_line() {
    old=$3 new=$4 awk '
        { text = $0; sub(/^ +/, "", text) }
        text == ENVIRON["old"] { $0 = ENVIRON["new"]; found++ }
        { print }
        END { exit found != 1 }' "$1" >"$2"
}

# The report of a comparison on one line.
in_short() {
    sed -n '/^first differing line/,$p' "$1" | tr -s '\n ' ' ' | cut -c1-200
}

# Prints one line about a mutant; fails if it was not noticed.
try_mutant() {
    local name file status=0
    name=$(field name "$1")
    file=$(field file "$1")
    if ! replace_line "$here/$file" "$work/$file" "$(field old "$1")" "$(field new "$1")"; then
        echo "NOT NOTICED $name (its old line does not occur exactly once)"
        return 1
    fi
    if ! build --bin compare 2>"$work/errors"; then
        echo "NOT NOTICED $name (it does not build)"
        return 1
    fi
    compare >"$work/report" 2>&1 || status=$?
    if [ "$status" -eq 1 ] && grep -q '^first differing line' "$work/report"; then
        echo "noticed $name: $(in_short "$work/report")"
    else
        echo "NOT NOTICED $name (the comparison ended with $status)"
        return 1
    fi
}

names=(replay list typed assemble lister cases lists_replay to_card from_card rescue_list valve_replay seats_replay)
declare -A commands
for name in "${names[@]}"; do
    commands[$name]="$work/${name}_ref"
done
while [ $# -gt 0 ]; do
    name=${1#--}
    if [ $# -lt 2 ] || [ "$name" = "$1" ] || [ -z "${commands[$name]:-}" ]; then
        echo "usage: mutants.sh [--replay \"CMD\" --list \"CMD\" --typed \"CMD\" --assemble \"CMD\" --lister \"CMD\" --cases \"CMD\" --lists_replay \"CMD\" --to_card \"CMD\" --from_card \"CMD\" --rescue_list \"CMD\" --valve_replay \"CMD\" --seats_replay \"CMD\"]" >&2
        exit 2
    fi
    commands[$name]=$2
    shift 2
done

cp -r "$here/Cargo.toml" "$here/Cargo.lock" "$here/src" "$work/"
build
for name in "${names[@]}"; do
    cp "$work/target/debug/${name}_ref" "$work/"
done

# Without this a comparison that always finds something would look perfect.
if ! compare >"$work/report" 2>&1; then
    cat "$work/report"
    echo "the reference differs before any mistake is put in"
    exit 1
fi

noticed=0
missed=0
for mutant in "$here"/mutants/*.mutant; do
    if try_mutant "$mutant"; then
        noticed=$((noticed + 1))
    else
        missed=$((missed + 1))
    fi
    file=$(field file "$mutant")
    cp "$here/$file" "$work/$file"
done
echo "$noticed mutants noticed, $missed not"
[ "$missed" -eq 0 ]
