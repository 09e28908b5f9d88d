#!/usr/bin/env bash
# Lays the legs of the same curves in plain Rust and by the proved crates. Both must print the same lines; then the
# curves a second are compared. It is no timed test: it fails where a line differs, and never on the ratio.
#
#     tests/bench/run.sh [NUMBER-OF-CURVES]
set -euo pipefail
cd "$(dirname "$0")/../.."

source tests/bench/turns.sh

curves=$(number_asked CURVES 2000 "$@")
build plain.rs bench_curves
# So few curves take some 5 ms, and of many such turns some are not interrupted even on a machine with much else to do.
take_turns 200 curves /dev/null "$curves"
