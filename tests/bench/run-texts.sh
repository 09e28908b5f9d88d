#!/usr/bin/env bash
# Answers the same plan texts in plain Rust and by the proved crates. Both must print the same lines; then the texts a
# second are compared. It is no timed test: it fails where a line differs, and never on the ratio.
#
#     tests/bench/run-texts.sh [NUMBER-OF-ROUNDS]
set -euo pipefail
cd "$(dirname "$0")/../.."

source tests/bench/turns.sh

rounds=$(number_asked ROUNDS 1 "$@")
build plain_texts.rs bench_texts
python3 tests/second/bench_plans.py texts >"$work/texts"
# A round takes some 20 ms, and of many such turns some are not interrupted even on a machine with much else to do.
take_turns 200 texts "$work/texts" "$rounds"
