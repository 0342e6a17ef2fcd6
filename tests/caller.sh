#!/usr/bin/env bash
# The library as its callers use it. README.md's program kept.c, taken from there, is compiled by README.md's own line without a
# warning, and run on the bundled reels and on some made from them; what it has to print is worked out here by hand, from what
# data/make.py says of them. README.md's lines on blocks are put into a program that damages some. Then the package rust/, called by a package of a user's own: what cargo says where the library is not
# built, and a library in another folder. It exits non-zero where anything differs; its last line says how many cases passed.
set -euo pipefail
cd "$(dirname "$(readlink -f "$0")")/.."
tests/library.sh
repository=$PWD
tmp=$(readlink -f "$(mktemp -d)")
trap 'rm -rf "$tmp"' EXIT
trap 'echo "tests/caller.sh: stopped at line $LINENO" >&2' ERR
passed=0
failed=0

# wanted NAME STATUS OUTPUT ERRORS: a case, that the last run had that status and said just that.
run() {
    status=0
    timeout 120 "$@" >"$tmp/out" 2>"$tmp/err" || status=$?
}
wanted() {
    if [ "$status" -eq "$2" ] && diff <(printf %s "$3") "$tmp/out" && diff <(printf %s "${4:+$4$'\n'}") "$tmp/err"; then
        passed=$((passed + 1))
    else
        echo "tests/caller.sh: $1: status $status, or not what it should say" >&2
        failed=$((failed + 1))
    fi
}

# README.md's program and its line. The rest of the line's folder is the repository's.
ln -s "$repository/c" "$repository/target" "$repository/data" "$tmp"
awk '/^    \/\* kept\.c: / { on = 1 } on && /^[^ ]/ { exit } on { sub(/^    /, ""); print }' README.md >"$tmp/kept.c"
compile=$(sed -n 's/^    \(gcc .* kept\.c .*\)/\1/p' README.md)
cd "$tmp"
run bash -c "$compile -Werror"
wanted "README.md's program, compiled" 0 '' ''

# A bundled reel's seconds are all kept: 81,000, of ten records, and 68,400 to 68,419, of two. kept LEFT_OUT: the lines of the slow
# reel but for one second.
kept() {
    seq 68400 68419 | sed "/$1/d; s/.*/second &, 2 records/"
    echo .
}
slow_but() { # NAME STATUS SECOND ERRORS: the case of $tmp/reel
    local lines
    lines=$(kept "$3")
    run ./kept <reel
    wanted "$1" "$2" "${lines%.}" "$4"
}
run ./kept <data/sample.odr
wanted "the sample" 0 $'second 81000, 10 records\n' ''
cp data/slow.odr reel
slow_but "the slow reel" 0 none ''
run ./kept </dev/null
wanted "an empty reel" 0 '' ''
run ./kept <data
wanted "a folder" 1 '' "kept: the reel cannot be read, or is too long"

# The slow reel with one thing wrong. Its records have 790 bytes, and those of second 68,405 are the ones from record 11 on.
tenth=$((10 * 790))
poke() { # BYTE VALUE
    cp data/slow.odr reel
    printf %b "$2" | dd of=reel bs=1 seek="$1" conv=notrunc status=none
}
{ head -c $tenth data/slow.odr; tail -c +$((tenth + 790 + 1)) data/slow.odr; } >reel
slow_but "a record missing" 0 68405 ''
poke $tenth '\x01'
slow_but "no clock origin in a second" 0 68405 ''
poke $((tenth + 790)) '\x21'
slow_but "a copy error" 0 68405 ''
poke $((tenth + 1)) '\x02'
slow_but "a record of another tape" 2 68405 "kept: odr_insert gives refusal 15 at byte $tenth"
{ cat data/slow.odr; head -c 100 /dev/zero; } >reel
slow_but "zeros behind the last record" 2 none "kept: odr_step gives refusal 1 at byte $((40 * 790))"
poke 0 '\x00'
run ./kept <reel
wanted "the first record refused" 2 '' "kept: odr_step gives refusal 4 at byte 0"

# README.md's lines on blocks, in a program that sends the first record of the slow reel in its two blocks, of which both come damaged,
# in a byte of the payload and in one of the check; who is asked again makes the block anew.
{
    cat <<'PROGRAM'
#include "odr.h"
#include <stdio.h>
#include <string.h>
enum { EDITION = ODR_EDITION_1985, LENGTH = 790 };
static uint8_t sent[LENGTH], blocks[ODR_LONGEST_EXPORT], record[ODR_LONGEST_RECORD];
static void ask_again(uint8_t *to, size_t index) {
    printf("again %zu\n", index);
    odr_export_block(EDITION, sent, LENGTH, index, to, ODR_BLOCK_BYTES);
}
int main(void) {
    if (fread(sent, 1, LENGTH, stdin) != LENGTH) return 1;
    size_t length = odr_export(EDITION, sent, LENGTH, blocks, sizeof blocks).length;
    blocks[100] ^= 1;
    blocks[length - 1] ^= 128;
PROGRAM
    sed -n '/^    odr_bad_block_answer bad;$/,/^$/p' "$repository/README.md"
    cat <<'PROGRAM'
    printf("%zu %u %zu %d\n", length, got.refusal, got.length, memcmp(sent, record, LENGTH));
    return 0;
}
PROGRAM
} >again.c
run bash -c "${compile//kept/again} -Werror"
wanted "README.md's lines on blocks, compiled" 0 '' ''
run ./again <data/slow.odr
wanted "README.md's lines on blocks, run" 0 $'again 0\nagain 1\n1024 0 790 0\n' ''

# The package rust/ in a folder that has no library, and a user's package that calls it.
mkdir -p there/rust user/src place empty
cp -r "$repository/rust/Cargo.toml" "$repository/rust/build.rs" "$repository/rust/src" there/rust
cp "$repository/target/staticlib/libodr.a" place
printf '[package]\nname = "user"\nversion = "0.1.0"\nedition = "2021"\n[dependencies]\nodr = { path = "../there/rust" }\n' >user/Cargo.toml
echo 'fn main() { println!("{}", odr::sample_rate(odr::EDITION_1985, 200).records); }' >user/src/main.rs
user() {
    run env "$@" CARGO_TARGET_DIR="$tmp/built" cargo run --quiet --offline --manifest-path user/Cargo.toml
}
no_library() { # FOLDER
    echo "error: odr@0.1.0: there is no $1/libodr.a: run \`tests/library.sh\` in $tmp/there," \
        "or give the folder of a libodr.a in ODR_LIB_DIR"
    echo "error: build script logged errors"
}
user -u ODR_LIB_DIR
wanted "rust/, the library not built" 101 '' "$(no_library "$tmp/there/target/staticlib")"
user ODR_LIB_DIR="$tmp/empty"
wanted "rust/, no library in the folder given" 101 '' "$(no_library "$tmp/empty")"
user ODR_LIB_DIR="$tmp/place"
wanted "rust/, the library in the folder given" 0 $'2\n' ''
user ODR_LIB_DIR=../../place
wanted "rust/, the folder's path from the package on" 0 $'2\n' ''

if [ $failed -ne 0 ]; then
    echo "tests/caller.sh: $failed cases failed, $passed passed" >&2
    exit 1
fi
echo "tests/caller.sh: $passed cases passed"
