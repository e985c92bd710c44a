#!/usr/bin/env bash
# How long the built program takes to read a file, beside another program that knows the same commands, turn by turn in the
# same run: bench/read.sh OTHER FILE [TURNS]. `report` reads and counts costs, `copy` reads and writes. Each figure is the
# least of the turns (7), in milliseconds: first of processor time, then of time that passed. Above 1 a ratio says that
# the built program is slower. The program is crates/rgb/out/rgb, or what PROGRAM names.
set -eu
other=$1
file=$2
turns=${3:-7}
top=$(cd "$(dirname "$0")/.." && pwd)
program=${PROGRAM:-$top/crates/rgb/out/rgb}
work=$(mktemp -d)
trap 'rm -rf "$work"' EXIT

# timed NAME WORD..: puts the processor time and the time of a command behind the others of that name.
timed() {
    local name=$1 TIMEFORMAT='%U %S %R'
    shift
    { time "$@" >"$work/out" 2>"$work/warned"; } 2>>"$work/$name"
}

# least NAME: the least of each in milliseconds.
least() {
    awk '{ cpu = $1 + $2; if (NR == 1 || cpu < c) c = cpu; if (NR == 1 || $3 < t) t = $3 } END { print c * 1000, t * 1000 }' "$work/$1"
}

for command in report copy; do
    to=()
    if [ "$command" = copy ]; then to=("$work/copied"); fi
    for _ in $(seq "$turns"); do
        timed "$command-program" "$program" "$command" "$file" "${to[@]}"
        timed "$command-other" "$other" "$command" "$file" "${to[@]}"
    done
    echo "$(least "$command-program") $(least "$command-other")" |
        awk -v c="$command" '{ printf "%s: %d and %d ms, ratio %.2f; passed %d and %d ms, ratio %.2f\n", c, $1, $3, $1 / $3, $2, $4, $2 / $4 }'
done
