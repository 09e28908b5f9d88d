#!/usr/bin/env bash
# Proves and builds the calls for C, and puts them where a C program links them: target/staticlib/libcard.a.
set -euo pipefail
cd "$(dirname "$0")/.."

(cd crates/card_calls && rt lib)
mkdir -p target/staticlib
cp crates/card_calls/out/libcard_calls.a target/staticlib/libcard.a
