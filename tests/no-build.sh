#!/usr/bin/env bash
# Programs that go round the order of a turn must not build, each for a reason of its own; the one
# beside them, which keeps to it, must be proved. Each source of tests/no-build/ in turn is the one
# crate of a scratch repository that stands on the libraries of this one, with what was kept of them.
set -euo pipefail
cd "$(dirname "$0")/.."
scratch=$(mktemp -d)
trap 'rm -rf "$scratch"' EXIT

libraries='ordinate distance bezier leg outlet curve turn planner'
mkdir -p "$scratch/crates/no_build/src"
for library in $libraries; do
    cp -r "crates/$library" "$scratch/crates/$library"
    grep "^$library:" crates.txt >>"$scratch/crates.txt"
done
echo "no_build: $libraries" >>"$scratch/crates.txt"
sources=$PWD/tests/no-build

check() { # source: its log goes to $scratch/log
    cp "$sources/$1" "$scratch/crates/no_build/src/lib.rt"
    (cd "$scratch/crates/no_build" && rt check) >"$scratch/log" 2>&1
}

fail() {
    echo "tests/no-build/$1: $2"
    tail -n 20 "$scratch/log"
    exit 1
}

check control.txt || fail control.txt 'does not build, and should'
grep -q '^fn no_build::told: proved$' "$scratch/log" || fail control.txt 'is not proved'
echo 'control.txt: proved'

must_not_build() { # source, the error
    if check "$1"; then fail "$1" 'builds'; fi
    grep -qE "src/lib.rt:.*error.*$2" "$scratch/log" || fail "$1" "is not refused for: $2"
    echo "$1: $(grep -m 1 -oE "error.*$2.*" "$scratch/log")"
}

must_not_build tell_from_draft.txt 'tell'
must_not_build lay_after_seal.txt 'moved'
must_not_build sealed_by_hand.txt 'private'
