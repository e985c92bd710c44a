#!/usr/bin/env bash
# What a thousand conjunctions cost beside the reading of their index: bench/query.sh [DOCUMENTS [TURNS]]. It makes an
# index of so many documents (1000000) and runs `query` on it with no query at all, which reads the index, its terms and
# its lists, and with a thousand conjunctions of two terms, and of two terms and a third one's absence. Each figure is the
# least of the turns (5), in milliseconds of processor time. The program is crates/rgb/out/rgb, or what PROGRAM names.
set -eu
documents=${1:-1000000}
turns=${2:-5}
top=$(cd "$(dirname "$0")/.." && pwd)
program=${PROGRAM:-$top/crates/rgb/out/rgb}
work=$(mktemp -d)
trap 'rm -rf "$work"' EXIT
"$program" make "$documents" "$work/made.ciff" --depth 0 >"$work/out"
: >"$work/none"
awk 'BEGIN { s = 1; for (i = 0; i < 1000; i++) { for (k = 0; k < 3; k++) { s = (s * 16807) % 2147483647; t[k] = s % 2000 }
    printf "w%04d AND w%04d%s\n", t[0], t[1], i % 2 ? sprintf(" AND NOT w%04d", t[2]) : "" } }' >"$work/conjunctions"

# least QUERIES: the least processor time of the turns.
least() {
    local TIMEFORMAT='%U %S'
    for _ in $(seq "$turns"); do
        { time "$program" query "$work/made.ciff" "$1" >"$work/out"; } 2>&1
    done | awk '{ if (NR == 1 || $1 + $2 < c) c = $1 + $2 } END { print c * 1000 }'
}

none=$(least "$work/none")
all=$(least "$work/conjunctions")
matches=$(awk '/^query /{ n += $4 } END { print n }' "$work/out")
echo "no query: $none ms; a thousand conjunctions, $matches matches: $all ms" |
    awk -v n="$none" -v a="$all" '{ printf "%s, so the answers take %.2f of the reading\n", $0, (a - n) / n }'
