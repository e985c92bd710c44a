#!/usr/bin/env bash
# Builds and runs a program over the crates: its name, the crates that it stands on, and its text on standard input.
# It works on a copy of the crates and leaves the repository as it is. Where KEEP is set, the program is copied there.
set -eu
name=$1
shift
top=$(cd "$(dirname "$0")/.." && pwd)
work=$(mktemp -d)
trap 'rm -rf "$work"' EXIT
cp -r "$top/crates" "$top/crates.txt" "$top/HANDLES" "$work"
rm -rf "$work"/crates/*/out
mkdir -p "$work/crates/$name/src"
echo "$name: $*" >>"$work/crates.txt"
cat >"$work/crates/$name/src/main.rt"
cd "$work/crates/$name"
rt run
if [ -n "${KEEP:-}" ]; then cp "out/$name" "$KEEP"; fi
