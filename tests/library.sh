#!/usr/bin/env bash
# Makes the library for C and Rust, target/staticlib/libodr.a, where it is missing or older than a source. `rt lib` proves the crate
# odr and what it stands on, and then writes the archive, which is copied to its place.
set -euo pipefail
cd "$(dirname "$0")/.."
library=target/staticlib/libodr.a
# What rt keeps in a crate's out/ is no source.
newer() {
    find crates crates.txt -regex 'crates/[^/]*/out' -prune -o -type f -newer "$library" -print -quit
}
if [ ! -f "$library" ] || [ -n "$(newer)" ]; then
    (cd ./crates/odr && rt lib)
    mkdir -p target/staticlib
    cp crates/odr/out/libodr.a "$library"
fi
