#!/usr/bin/env bash
# How long the built program takes to reorder a file, beside another program that knows the same command, turn by turn in the
# same run: bench/reorder.sh OTHER FILE [TURNS [WORD..]]. The words are options of both, and those of OTHER alone stand in the
# variable OTHER_WORDS. Each figure is the least of the turns (5), in milliseconds: first of processor time, then of time that
# passed. Above 1 a ratio says that the built program is slower. With it goes whether both wrote and printed the same. The
# program is crates/rgb/out/rgb, or what PROGRAM names.
set -eu
other=$1
file=$2
turns=${3:-5}
shift 2
if [ "$#" -gt 0 ]; then shift; fi
top=$(cd "$(dirname "$0")/.." && pwd)
program=${PROGRAM:-$top/crates/rgb/out/rgb}
work=$(mktemp -d)
trap 'rm -rf "$work"' EXIT

# timed NAME WORD..: puts the processor time and the time of a command behind the others of that name.
timed() {
    local name=$1 TIMEFORMAT='%U %S %R'
    shift
    { time "$@" >"$work/$name.text" 2>"$work/warned"; } 2>>"$work/$name"
}

# least NAME: the least of each in milliseconds.
least() {
    awk '{ cpu = $1 + $2; if (NR == 1 || cpu < c) c = cpu; if (NR == 1 || $3 < t) t = $3 } END { print c * 1000, t * 1000 }' "$work/$1"
}

for workers in 1 4; do
    for _ in $(seq "$turns"); do
        timed "program-$workers" "$program" reorder "$file" "$work/program.out" --workers "$workers" "$@"
        # shellcheck disable=SC2086
        timed "other-$workers" "$other" reorder "$file" "$work/other.out" --workers "$workers" "$@" ${OTHER_WORDS:-}
    done
    same=same
    cmp -s "$work/program.out" "$work/other.out" || same='other bytes'
    cmp -s "$work/program-$workers.text" "$work/other-$workers.text" || same='another text'
    echo "$(least "program-$workers") $(least "other-$workers")" |
        awk -v w="$workers" -v s="$same" '{ printf "%d workers: %d and %d ms, ratio %.2f; passed %d and %d ms, ratio %.2f; %s\n", w, $1, $3, $1 / $3, $2, $4, $2 / $4, s }'
done
