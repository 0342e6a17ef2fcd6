#!/usr/bin/env bash
# The library, called through its C interface, against the independent second program in second/, on generated inputs:
#     tests/differential.sh [SEED] [CASES]
# By default the seed and the number of cases are those of compare/src/bin/differential.rs. It exits non-zero at a difference. At
# the default number of cases or more it also does so where an outcome of a call was never met; with fewer it only names such
# outcomes. --help says the same.
set -euo pipefail
cd "$(dirname "$0")/.."
tests/library.sh
cargo build --quiet --release --offline --manifest-path compare/Cargo.toml
compare/target/release/differential "$@"
