#!/usr/bin/env bash
# Every function of c/odr.h called from C: tests/boundary.c must print tests/boundary.out, whose values were worked out by hand
# from docs/FORMAT.md. Then the header file alone as C++, the names and numbers of the Rust package rust/ beside it, and the names that
# the archive needs from outside, of which there is one (docs/DECISIONS.md, "Copying bytes, in code that C links"). It exits non-zero
# where anything differs.
set -euo pipefail
cd "$(dirname "$0")/.."
tests/library.sh
program=$(mktemp)
trap 'rm -f "$program"' EXIT
gcc -std=c11 -Wall -Wextra -Werror -Ic tests/boundary.c target/staticlib/libodr.a -o "$program"
"$program" | diff - tests/boundary.out
needs=$(nm -u target/staticlib/libodr.a | awk '$1 == "U" { print $2 }' | sort -u)
[ "$needs" = memset ] || { echo "tests/boundary.sh: libodr.a needs from outside:" $needs >&2; exit 1; }
echo '#include "odr.h"' | g++ -std=c++17 -Wall -Wextra -Werror -Ic -fsyntax-only -x c++ -
said=$(cargo test --quiet --release --offline --manifest-path rust/Cargo.toml 2>&1) || { echo "$said" >&2; exit 1; }
echo "tests/boundary.sh: $(grep -c . tests/boundary.out) lines are the same, odr.h is C++ too, rust/ has its names and numbers, libodr.a needs $needs alone"
