#!/usr/bin/env bash
# Runs the lister, target/bin/lister, on its stored cases: tests/lister/NAME.in must give NAME.out, byte for byte. Each case is
# run from its file and again through a pipe that gives it in two pieces, so that a read comes back short. Then a read that fails
# must give no listing, and a message. It exits non-zero where anything differs; its last line says how many cases passed.
set -euo pipefail
cd "$(dirname "$0")/.."
lister=target/bin/lister
[ -x "$lister" ] || { echo "tests/lister.sh: $lister is not built: ./list builds it" >&2; exit 1; }
got=$(mktemp)
trap 'rm -f "$got"' EXIT
trap 'echo "tests/lister.sh: stopped at line $LINENO" >&2' ERR
passed=0
failed=0

for input in tests/lister/*.in; do
    expected=${input%.in}.out
    good=yes
    "$lister" <"$input" >"$got"
    cmp "$got" "$expected" || good=no
    # The lister reads no more than it needs to know that an input is too long; `tail` may then find the pipe closed.
    { head -c 100 "$input"; sleep 0.02; tail -c +101 "$input" || true; } | "$lister" >"$got"
    cmp "$got" "$expected" || good=no
    if [ $good = yes ]; then
        passed=$((passed + 1))
    else
        echo "tests/lister.sh: the lister does not write $expected" >&2
        failed=$((failed + 1))
    fi
done

# A directory opens and cannot be read.
message=$("$lister" <tests 2>&1 >"$got")
if [ ! -s "$got" ] && [ "$message" = "lister: standard input cannot be read" ]; then
    passed=$((passed + 1))
else
    echo "tests/lister.sh: a read that fails gives '$message' and a listing, or another message" >&2
    failed=$((failed + 1))
fi

if [ $failed -ne 0 ]; then
    echo "tests/lister.sh: $failed cases failed, $passed passed" >&2
    exit 1
fi
echo "tests/lister.sh: $passed cases passed"
