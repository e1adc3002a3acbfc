#!/usr/bin/env bash
# Compares the proved library, through its C functions, with a reader that was written apart from it.
# usage: tests/independent.sh [SECONDS [SEED]]; a long run is `tests/independent.sh 3600 1`
set -eu
cd "$(dirname "$0")/.."
./build-library >/dev/null 2>&1 || { echo "build-library failed"; exit 1; }
for main in check main; do
    link=()
    [ "$main" = main ] && link=(-L native=target/lib -l static=rfc733)
    rustc -O --edition 2021 -A dead_code "${link[@]}" -o "target/lib/independent-$main" "tests/independent/$main.rs"
done
target/lib/independent-check
target/lib/independent-main "${2-733}" "${1-30}"
