#!/usr/bin/env bash
# The independent second program in second/, not written from the Rattle code: its own tests, and its listing of every stored case
# of the lister, which must be the same byte for byte. It exits non-zero where anything differs.
set -euo pipefail
cd "$(dirname "$0")/.."
cargo test --quiet --release --offline --manifest-path second/Cargo.toml
cargo build --quiet --release --offline --manifest-path second/Cargo.toml
cases=0
for input in tests/lister/*.in; do
    second/target/release/second <"$input" | cmp - "${input%.in}.out"
    cases=$((cases + 1))
done
echo "tests/second.sh: its tests passed, and $cases listings are the same"
