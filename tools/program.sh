#!/usr/bin/env bash
# Rows over the built program: its status, both its outputs and the files that it leaves.
# tools/program.sh [PROGRAM]; without one, crates/rgb/out/rgb. Its last line is 'program: N passed, M failed'.
set -u
top=$(cd "$(dirname "$0")/.." && pwd)
program=${1:-$top/crates/rgb/out/rgb}
passed=0
failed=0
if [ ! -x "$program" ]; then
    echo "program: 0 passed, 0 failed (it isn't built)"
    exit 0
fi
program=$(cd "$(dirname "$program")" && pwd)/$(basename "$program")
work=$(mktemp -d)
trap 'rm -rf "$work"' EXIT
cd "$work" || exit 1

# The 25 bytes of one list and one document; the same with its fields reversed, defaults written and an
# unknown field; two documents; two lists of one term; and one byte too many.
printf '\6\10\1\20\1\30\1\13\12\1\141\20\1\30\2\42\2\20\2\5\22\1\170\30\2' >one.ciff
printf '\10\30\1\20\1\10\1\170\5\15\42\4\20\2\10\0\30\2\20\1\12\1\141\7\30\2\22\1\170\10\0' >reversed.ciff
printf '\2\30\2\0\2\10\1' >two.ciff
printf '\4\10\1\20\2\3\12\1\141\3\12\1\141' >same_term.ciff
{ cat one.ciff; printf '\0'; } >longer.ciff
printf '\0' >nothing.ciff
line='documents 1 lists 1 postings 1'

# A list over 9000 documents in a row, 169,776 bytes, whose gaps are all 1.
printf "$(awk '
function byte(n) { size++; return sprintf("\\%03o", n) }
function varint(n) { return n < 128 ? byte(n) : byte(n % 128 + 128) varint(int(n / 128)) }
function number(field, n) { return n == 0 ? "" : byte(field * 8) varint(n) }
function text(field, t) { size += length(t); return byte(field * 8 + 2) varint(length(t)) t }
function framed(message, len) { len = size; return varint(len) message }
BEGIN {
    size = 0; header = number(2, 1) number(3, 9000); printf "%s", framed(header)
    size = 0; list = text(1, "a") number(2, 9000) number(3, 9000)
    for (doc = 0; doc < 9000; doc++) {
        before = size; size = 0; posting = number(1, doc > 0) number(2, 1)
        posting = framed(posting); size += before; list = list byte(34) posting
    }
    printf "%s", framed(list)
    for (doc = 0; doc < 9000; doc++) {
        size = 0; record = number(1, doc) text(2, "d" doc) number(3, 1); printf "%s", framed(record)
    }
}')" >many.ciff

# row STATUS PRINTED WARNED [WORD..]: the program over these words, with standard output in the file of $out.
out=printed
row() {
    local status=$1 printed=$2 warned=$3
    shift 3
    : >printed
    "$program" "$@" >"$out" 2>warned
    tell "$?" "$status" "status of: $*"
    tell "$(cat printed)" "$printed" "printed by: $*"
    tell "$(cat warned)" "$warned" "warned by: $*"
}

# tell FOUND WANTED WHAT
tell() {
    if [ "$1" = "$2" ]; then
        passed=$((passed + 1))
    else
        failed=$((failed + 1))
        echo "program: $3: '$1' and not '$2'"
    fi
}

# bytes NAME: those of the file in hexadecimal digits.
bytes() { od -An -v -tx1 "$1"; }

# same NAME NAME: whether two files have the same bytes.
same() { if cmp -s "$1" "$2"; then echo same; else echo different; fi; }

one=$(bytes one.ciff)
row 0 "$line" '' copy one.ciff out.ciff
tell "$(bytes out.ciff)" "$one" 'out.ciff'
row 0 "$line" '' copy reversed.ciff out.ciff
tell "$(bytes out.ciff)" "$one" 'a canonical file of another spelling'
row 0 'documents 2 lists 0 postings 0' '' copy two.ciff out.ciff
tell "$(same two.ciff out.ciff)" same 'two documents'
cp one.ciff same.ciff
row 0 "$line" '' copy same.ciff same.ciff
tell "$(bytes same.ciff)" "$one" 'a file copied onto itself'
cp many.ciff over.ciff
row 0 "$line" '' copy one.ciff over.ciff
tell "$(bytes over.ciff)" "$one" 'a longer file written over'
many='documents 9000 lists 1 postings 9000'
row 0 "$many" '' copy many.ciff out.ciff
tell "$(wc -c <many.ciff)" 169776 'the size of many.ciff'
tell "$(same many.ciff out.ciff)" same 'a file of several pieces'
birds=$top/crates/rgb/data/birds.ciff
row 0 'documents 1000 lists 2522 postings 10723' '' copy "$birds" out.ciff
tell "$(same "$birds" out.ciff)" same 'birds.ciff'

row 0 "$line"$'\ngamma 1 delta 1 bytes 1' '' report one.ciff
row 0 "$line"$'\ngamma 1 delta 1 bytes 1' '' report --workers 64 one.ciff
row 0 "$many"$'\ngamma 9000 delta 9000 bytes 9000' '' report many.ciff --workers 01
for workers in 1 2 3 64; do
    row 0 $'documents 1000 lists 2522 postings 10723\ngamma 111349 delta 103412 bytes 14167' '' \
        report "$birds" --workers "$workers"
done

# What another program of the same rules writes and prints for birds.ciff.
# reordered SUM TEXT [WORD..]: the sums of OUT and of the printed text.
reordered() {
    local sum=$1 text=$2
    shift 2
    "$program" reorder "$birds" out.ciff "$@" >printed 2>warned
    tell "$? $(cat warned)" '0 ' "status of: reorder $*"
    tell "$(cksum <out.ciff)" "$sum" "written by: reorder $*"
    tell "$(cksum <printed)" "$text" "printed by: reorder $*"
}
for workers in 1 2 3 64; do
    for step in 1 4 31; do
        reordered '1350987909 120380' '2076827277 17760' --workers "$workers" --step "$step"
    done
done
reordered '2320709494 120643' '1639938294 569' --depth 1
reordered '3348425332 120419' '3468547473 16587' --min-df 4 --workers 2
reordered '1633033346 120379' '4051085238 12249' --leaf 1 --depth 5 --workers 3
# By name is as by number, of the file that stands in the order of the names.
"$program" reorder "$birds" named.ciff --start name --depth 0 >printed
"$program" reorder named.ciff by_number.ciff --workers 2 >printed_by_number
"$program" reorder "$birds" by_name.ciff --start name >printed_by_name
tell "$(same by_number.ciff by_name.ciff)" same 'birds.ciff reordered from the order of its names'
tell "$(grep -c ^round printed_by_name)" "$(grep -c ^round printed_by_number)" 'its rounds'
row 0 $'documents 0 lists 0 postings 0\nbefore gamma 0 delta 0 bytes 0\nafter gamma 0 delta 0 bytes 0' '' \
    reorder nothing.ciff out.ciff --workers 64

# What another program of the same rules writes and prints for generated indexes.
made=$'documents 2000 lists 2000 postings 35236\nkept 737\nbefore gamma 420626 delta 385021 bytes 45840'
for workers in 1 4; do
    row 0 "$made"$'\nafter gamma 225888 delta 220064 bytes 40597' '' make 2000 made.ciff --workers "$workers"
    tell "$(cksum <made.ciff)" '2719755772 278767' "made.ciff by $workers workers"
done
row 0 $'documents 0 lists 0 postings 0\nkept 0\nbefore gamma 0 delta 0 bytes 0\nafter gamma 0 delta 0 bytes 0' '' \
    make --number 4294967295 0 made.ciff
tell "$(wc -c <made.ciff)" 25 'the size of an index of no documents'

# What plain sets in another language answer over birds.ciff.
"$program" query "$birds" "${birds%.ciff}.queries" >printed 2>warned
tell "$? $(cat warned)" '0 ' 'status of: query of birds.queries'
tell "$(cksum <printed)" '3890458072 161526' 'printed by: query of birds.queries'
# Over the file renumbered each query means the same documents, with other numbers.
"$program" reorder "$birds" other.ciff >printed_by_reorder
"$program" query other.ciff "${birds%.ciff}.queries" >printed_by_other
named() { awk '/^query /{ line = $2; print; next } { print "query", line, $2 }' "$1" | LC_ALL=C sort; }
named printed >names
named printed_by_other >names_by_other
tell "$(same names names_by_other)" same 'names that queries mean over birds.ciff and over it reordered'
tell "$(same printed printed_by_other)" different 'numbers that queries mean over birds.ciff and over it reordered'
printf 'a AND NOT b\r\n\n\tNOT "a"' >some.queries
row 0 $'query 1 matches 1\n0 x\nquery 3 matches 0' '' query one.ciff some.queries
row 0 $'query 1 matches 0\nquery 3 matches 2\n0 \n1 ' '' query two.ciff some.queries
: >no.queries
row 0 '' '' query many.ciff no.queries
head -c 16777216 /dev/zero | tr '\0' '\n' >most.queries
row 0 '' '' query one.ciff most.queries

# `live` is `reorder` with readers beside it. Which version a reader sees depends on when it looks, so the text is
# written anew from the versions that it names: the answers at a version are those of `query` over the index as the
# reordering left it then.
costs_of_one=$'\nbefore gamma 1 delta 1 bytes 1\nafter gamma 1 delta 1 bytes 1'
row 0 "$line$costs_of_one"$'\nreaders 2' '' live one.ciff out.ciff no.queries
tell "$(bytes out.ciff)" "$one" 'out.ciff of live'
row 0 "$line$costs_of_one"$'\nreaders 16\nlive 1 version 0 matches 1\n0 x\nlive 3 version 0 matches 0'\
$'\nfinal 1 version 0 matches 1\n0 x\nfinal 3 version 0 matches 0' '' \
    live --depth 0 one.ciff --readers 16 out.ciff some.queries
row 0 $'documents 0 lists 0 postings 0\nbefore gamma 0 delta 0 bytes 0\nafter gamma 0 delta 0 bytes 0\nreaders 1' '' \
    live nothing.ciff out.ciff no.queries --readers 1
tell "$(same nothing.ciff out.ciff)" same 'no documents beside readers'

# at_version NUMBER [WORD..]: what the queries mean over the index that `reorder` with these words leaves.
at_version() {
    local number=$1
    shift
    "$program" reorder "$birds" version.ciff "$@" >printed
    "$program" query version.ciff "${birds%.ciff}.queries" >"version_$number"
}

# told READERS LAST: the text of the printed live blocks' versions behind that of the reordering. A version that is
# above the last one, or below the one before it of the same reader, is told as `wrong`.
told() {
    awk -v readers="$1" -v last="$2" '
    FNR == 1 { file++ }
    file <= last + 1 && $1 == "query" {
        line = $2; count[file - 1, line] = $4
        if (file == 1) { lines[++queries] = line }
        next
    }
    file <= last + 1 { shown[file - 1, line] = shown[file - 1, line] $0 "\n"; next }
    $1 == "live" { version[$2] = $4 }
    function put(word, line, at) {
        printf "%s %s version %s matches %s\n%s", word, line, at, count[at, line], shown[at, line]
    }
    END {
        print "readers " readers
        for (i = 1; i <= queries; i++) {
            at = version[lines[i]]
            falls = i > readers && at + 0 < version[lines[i - readers]] + 0
            put("live", lines[i], falls || at + 0 > last ? "wrong" : at)
        }
        for (i = 1; i <= queries; i++) { put("final", lines[i], last) }
    }' $(seq -f 'version_%g' 0 "$2") behind
}

# beside READERS LAST [WORD..]: `live` of birds.ciff with these words, beside `reorder` with them.
beside() {
    local readers=$1 last=$2 size
    shift 2
    "$program" reorder "$birds" plain.ciff "$@" >printed_by_reorder
    "$program" live "$birds" beside.ciff "${birds%.ciff}.queries" --readers "$readers" "$@" >printed 2>warned
    tell "$? $(cat warned)" '0 ' "status of: live --readers $readers $*"
    tell "$(same plain.ciff beside.ciff)" same "written by: live --readers $readers $*"
    size=$(wc -l <printed_by_reorder)
    head -n "$size" printed >front
    tail -n "+$((size + 1))" printed >behind
    tell "$(same front printed_by_reorder)" same "the text of the reordering by: live --readers $readers $*"
    told "$readers" "$last" >wanted
    tell "$(same behind wanted)" same "answers by: live --readers $readers $*"
    awk '/^(live|final) / { line = $1 " " $2; next } line { print line, $2 }' behind | LC_ALL=C sort >names
    tell "$(same names names_twice)" same "names by: live --readers $readers $*"
}

"$program" query "$birds" "${birds%.ciff}.queries" >version_0
awk '$1 == "query" { line = $2; next } { print "live", line, $2; print "final", line, $2 }' version_0 |
    LC_ALL=C sort >names_twice
number=0
for depth in 4 8 12 16 20 24 28 31; do
    number=$((number + 1))
    at_version "$number" --depth "$depth"
done
for readers in 1 2 3 16; do
    for workers in 1 4; do
        beside "$readers" 8 --workers "$workers"
    done
done
at_version 1 --start name --depth 0
at_version 2 --start name --depth 1
at_version 3 --start name --depth 2
beside 2 3 --start name --depth 2 --step 1

row 2 '' usage
row 2 '' usage Copy one.ciff no.ciff
row 2 '' usage copy one.ciff
row 2 '' usage copy one.ciff no.ciff more
row 2 '' usage copy one.ciff no.ciff --depth 1
row 2 '' usage copy one.ciff no.ciff --workers 1
row 2 '' usage copy one.ciff $'no\377.ciff'
row 2 '' usage report one.ciff --workers 0
row 2 '' usage report one.ciff --workers 65
row 2 '' usage report one.ciff --workers
row 2 '' usage reorder one.ciff no.ciff --depth 32
row 2 '' usage reorder one.ciff no.ciff --start doc
row 2 '' usage reorder one.ciff no.ciff --depth=3
row 2 '' usage query one.ciff
row 2 '' usage query one.ciff some.queries --workers 1
row 2 '' usage live one.ciff no.ciff
row 2 '' usage live one.ciff no.ciff some.queries more
row 2 '' usage live one.ciff no.ciff some.queries --readers 0
row 2 '' usage live one.ciff no.ciff some.queries --readers 17
row 2 '' usage live one.ciff no.ciff some.queries --workers 65
row 2 '' usage make x no.ciff
row 2 '' usage make 1000001 no.ciff
row 2 '' usage make 3 no.ciff --number 4294967296
row 3 '' 'malformed 0 CutShort' copy /dev/null no.ciff
row 3 '' 'malformed 25 Trailing' copy longer.ciff no.ciff
row 3 '' 'malformed 9 SameTerm' copy same_term.ciff no.ciff
row 3 '' 'malformed 9 SameTerm' report same_term.ciff
row 3 '' 'malformed 9 SameTerm' live same_term.ciff no.ciff missing.queries
for size in 100000 169775; do
    head -c "$size" many.ciff >cut.ciff
    "$program" copy cut.ciff no.ciff 2>warned
    tell "$? $(sed 's/[0-9][0-9]*/PLACE/' warned)" '3 malformed PLACE CutShort' "many.ciff cut to $size bytes"
done
row 4 '' 'read fault' copy missing.ciff no.ciff
row 4 '' 'read fault' report missing.ciff
row 4 '' 'read fault' reorder missing.ciff no.ciff
row 4 '' 'read fault' query missing.ciff some.queries
row 4 '' 'read fault' query one.ciff missing.queries
row 4 '' 'read fault' live missing.ciff no.ciff some.queries
row 4 '' 'read fault' live one.ciff no.ciff missing.queries
row 3 '' 'malformed 25 Trailing' query longer.ciff missing.queries
row 4 '' 'read fault' copy . no.ciff
row 4 '' 'read fault' report .

printf 'a\n\na b\n' >bad.queries
row 7 '' 'query 3 2 Unexpected' query one.ciff bad.queries
row 7 '' 'query 3 2 Unexpected' live one.ciff no.ciff bad.queries
printf '\377' >bad.queries
row 7 '' 'query 1 0 NotText' query one.ciff bad.queries
printf '\n' >>most.queries
row 8 '' 'queries too long' query one.ciff most.queries
row 8 '' 'queries too long' live one.ciff no.ciff most.queries
tell "$([ -e no.ciff ] && echo there || echo none)" none 'no.ciff'

row 5 '' 'write fault' copy one.ciff missing/no.ciff
row 5 '' 'write fault' copy one.ciff .
row 5 '' 'write fault' copy one.ciff /dev/full
row 5 '' 'write fault' copy many.ciff /dev/full
row 5 '' 'write fault' reorder "$birds" /dev/full
row 5 '' 'write fault' make 3 /dev/full
row 5 '' 'write fault' live "$birds" /dev/full some.queries
out=/dev/full
row 5 '' 'write fault' copy one.ciff whole.ciff
tell "$(bytes whole.ciff)" "$one" 'whole.ciff'
row 5 '' 'write fault' reorder one.ciff whole.ciff
tell "$(bytes whole.ciff)" "$one" 'whole.ciff reordered'
row 5 '' 'write fault' live one.ciff whole.ciff some.queries
tell "$(bytes whole.ciff)" "$one" 'whole.ciff of live'
row 5 '' 'write fault' report one.ciff
row 5 '' 'write fault' query one.ciff some.queries

echo "program: $passed passed, $failed failed"
[ "$failed" -eq 0 ]
