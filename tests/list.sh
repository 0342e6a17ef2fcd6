#!/usr/bin/env bash
# ./list as a user calls it: what it reads, what it shows, its exit status, and when and how it builds the lister. It works in a
# temporary copy of the files that matter, with the lister from target/bin and a stand-in for rt: that tries the script, not the
# prover, and leaves the real target/ alone. Then the bundled reels, what README.md says of them, and its commands for a long reel.
# It exits non-zero where anything differs; its last line says how many cases passed.
set -euo pipefail
cd "$(dirname "$(readlink -f "$0")")/.."
[ -x target/bin/lister ] || { echo "tests/list.sh: target/bin/lister is not built: ./list builds it" >&2; exit 1; }
trap 'echo "tests/list.sh: stopped at line $LINENO" >&2' ERR
unset CDPATH "${!GIT_@}"
tmp=$(readlink -f "$(mktemp -d)")
trap 'rm -rf "$tmp"' EXIT
passed=0
failed=0

check() { # NAME COMMAND..: a case, which passes where the command succeeds
    if "${@:2}"; then
        passed=$((passed + 1))
    else
        echo "tests/list.sh: $1: not as it should be" >&2
        failed=$((failed + 1))
    fi
}

# run COMMAND.. keeps its status, output and errors; expect NAME STATUS FILE TEXT is the case that they are that status, the bytes
# of that file and that text alone.
run() {
    status=0
    timeout 60 "$@" >"$tmp/out" 2>"$tmp/err" || status=$?
}
as_wanted() {
    [ "$status" -eq "$1" ] || { echo "status $status, and not $1"; return 1; }
    cmp "$tmp/out" "$2" && diff "$tmp/err" <(printf '%s' "${3:+$3$'\n'}")
}
expect() {
    check "$1" as_wanted "${@:2}"
}
nothing=/dev/null

# A copy has sources of long ago: those of each crate that the lister stands on and that crates.txt lists.
crates=$(awk -F: '/^[a-z]/ { own[$1] } $1 == "lister" { n = split($2, on, " ") }
    END { for (i = 1; i <= n; i++) if (on[i] in own) print on[i]; print "lister" }' crates.txt)
make_tree() { # FOLDER
    for crate in $crates; do
        mkdir -p "$1/crates/$crate/src"
        : >"$1/crates/$crate/src/lib.rt"
    done
    cp list crates.txt "$1"
    find "$1/crates" "$1/crates.txt" -exec touch -d 2000-01-01 {} +
}

# The stand-in for rt notes what it was asked, reads what it is given, says much, makes the program where it has no stamp, as rt
# does, and fails at the crate that FAILS names.
mkdir "$tmp/rt"
cat >"$tmp/rt/rt" <<'STANDIN'
#!/usr/bin/env bash
echo "$(pwd) $*" >>"$CALLS"
cat >/dev/null
seq 100
crate=$(basename "$(pwd)")
echo "rt: $crate proved (0 s)"
mkdir -p out
if [ "$1" = run ] && [ ! -e "out/$crate.stamp" ]; then cp "$LISTER" "out/$crate"; fi
if [ "$crate" = "${FAILS:-}" ]; then exit 1; fi
if [ "$1" = run ]; then : >"out/$crate.stamp"; fi
STANDIN
chmod +x "$tmp/rt/rt"

# From here on everything happens in a copy, tree, which has its program; another, new, has none yet.
repository=$PWD
tree=$tmp/tree
new=$tmp/new
make_tree "$tree"
make_tree "$new"
mkdir -p "$tree/target/bin" "$tree/tests"
cp target/bin/lister "$tree/target/bin"
cp -r data README.md "$tree"
cp -r tests/lister "$tree/tests"
cd "$tree"
export LISTER=$tree/target/bin/lister CALLS=$tmp/calls PATH=$tmp/rt:$PATH
: >"$CALLS"
list=$tree/list

# What is read.
run "$list" data/sample.odr
expect "a file" 0 data/sample.csv ''
run "$list" <data/slow.odr
expect "standard input from a file" 0 data/slow.csv ''
run "$list" < <(cat data/slow.odr)
expect "a pipe" 0 data/slow.csv ''
run "$list" - < <(cat data/slow.odr)
expect "-, a pipe" 0 data/slow.csv ''
run "$list" data/sample.odr <data/slow.odr
expect "a file, and another on standard input" 0 data/sample.csv ''
cp data/slow.odr "$tmp/-reel"
run bash -c 'cd "$1" && "$2" -- -reel' bash "$tmp" "$list"
expect "--, and a name that begins with a dash" 0 data/slow.csv ''
run "$list" -- data/slow.odr
expect "--, and a file" 0 data/slow.csv ''
run "$list" -- <data/slow.odr
expect "-- alone" 0 data/slow.csv ''
run "$list" -- - <data/slow.odr
expect "--, and -" 0 data/slow.csv ''

# The sentence beside a refusal: what it means, the byte and the record before it. sentence NUMBER BYTE WHERE is what it has to be.
declare -A meaning=(
    [1]="fewer than 80 bytes are left, or the record's length (word 3) is below 40 words"
    [2]="fewer bytes are left than the record's length (word 3) says"
    [3]="the samples do not have 8 bits, or the record is of 1992"
    [4]="the compression is not 0001, no compression"
    [5]="the sample rate (word 37) is none of the seven of 1985"
    [6]="the record's length (word 3) is neither of the two that its sample rate has"
    [7]="the tape number or the record number is 0"
    [8]="there is no such date: the year is above 99, or the day is 0 or past the end of the year"
    [9]="the record's time tag or the readback's is past the end of the day"
    [10]="a decimal digit is above 9 in the readback frequency, the calculated frequency or the frequency rate"
    [11]="the clock origin is 1, but the sync word (word 38) is not A55A hex"
)
sentence() {
    echo "list: refused with $1 at byte $2 (counted from 0), $3: ${meaning[$1]}; a reel is bare records of 1985," \
        "with no tape label and no framing"
}
too_long="list: refused with 24: the input is longer than 65,536 bytes, and README.md says how to list it in parts"
for input in tests/lister/*.in; do
    number=$(sed -n 's/^refused,//p' "${input%.in}.out")
    case $(basename "$input" .in):$number in
    *:) said='' ;;
    *:24) said=$too_long ;;
    refused-first:4) said=$(sentence 4 0 "before any record") ;;
    length-65536:1) said=$(sentence 1 65530 "after record 70") ;;
    longest:1) said=$(sentence 1 65520 "after record 65535") ;;
    *) said=$(sentence "$number" 780 "after record 7") ;;
    esac
    run "$list" "$input"
    expect "$input" $((${number:+2})) "${input%.in}.out" "$said"
done
run "$list" < <(cat tests/lister/length-65536.in)
expect "a refusal, from a pipe" 2 tests/lister/length-65536.out "$(sentence 1 65530 "after record 70")"
run "$list" < <(cat /dev/zero)
expect "a pipe without end" 2 tests/lister/length-65537.out "$too_long"
run bash -c '"$1" tests/lister/refused-3.in 2>&-' bash "$list"
expect "a refusal, standard error closed" 2 tests/lister/refused-3.out ''
# A record of 1992 by docs/FORMAT.md, "Cases worked by hand": 566 bytes, 200 a second.
python3 -c 'import struct, sys
words = {1: 0x9101, 2: 1, 3: 283, 6: 0xAC18, 80: 200, 81: 0xA55A}
sys.stdout.buffer.write(struct.pack(">283H", *(words.get(n, 0) for n in range(1, 284))))' >"$tmp/1992.odr"
printf 'record,first_us,origin,poca_hz,rate_hz_s\nrefused,3\n' >"$tmp/refused-3"
run "$list" "$tmp/1992.odr"
expect "a reel of 1992" 2 "$tmp/refused-3" "$(sentence 3 0 "before any record")"

# What is said instead of a listing.
run "$list" --help
cp "$tmp/out" "$tmp/help"
expect "--help" 0 "$tmp/help" ''
check "--help says how" grep -q '^\./list FILE ' "$tmp/help"
at_terminal='import pty, subprocess, sys; sys.exit(subprocess.call(sys.argv[1:], stdin=pty.openpty()[1]))'
run python3 -c "$at_terminal" "$list"
expect "no argument at a terminal" 0 "$tmp/help" ''
run python3 -c "$at_terminal" "$list" --
expect "-- at a terminal" 0 "$tmp/help" ''
run "$list" -h
expect "-h" 0 "$tmp/help" ''
echo "list (Afondreth), commit not known" >"$tmp/version"
run "$list" --version
expect "--version without a repository of git" 0 "$tmp/version" ''
run "$list" -x
expect "an unknown option" 1 $nothing "list: there is no option -x: ./list --help says how"
run "$list" --verbose data/sample.odr
expect "an unknown long option" 1 $nothing "list: there is no option --verbose: ./list --help says how"
run "$list" ''
expect "an empty argument" 1 $nothing "list: the name of the reel is empty: ./list --help says how"
run "$list" data/sample.odr data/slow.odr
expect "two arguments" 1 $nothing "list: one reel at a time, and 2 arguments are given: ./list --help says how"
run "$list" -- data/sample.odr data/slow.odr
expect "--, and two arguments" 1 $nothing "list: one reel at a time, and 2 arguments are given: ./list --help says how"
run "$list" data/none.odr
expect "no such file" 1 $nothing "list: there is no file data/none.odr"
run "$list" data
expect "a folder" 1 $nothing "list: data is a folder, not a reel"
run "$list" - <data
expect "a folder as standard input" 1 $nothing "list: standard input cannot be read"
run "$list" - <&-
expect "standard input closed" 1 $nothing "list: standard input is closed"
run bash -c '"$1" data/sample.odr >/dev/full' bash "$list"
expect "standard output full" 1 $nothing "list: standard output cannot be written"
run bash -c '"$1" data/sample.odr >&-' bash "$list"
expect "standard output closed" 1 $nothing "list: standard output cannot be written"

# Where it is called from.
mkdir "$tmp/elsewhere" "$tmp/elsewhere/data"
cp data/slow.odr "$tmp/elsewhere/reel"
ln -s ../tree/list "$tmp/elsewhere/link"
run bash -c 'cd "$1" && ./link reel' bash "$tmp/elsewhere"
expect "through a link" 0 data/slow.csv ''
CDPATH=$tmp/elsewhere:/ run ./list data/slow.odr
expect "with CDPATH" 0 data/slow.csv ''
run bash -c 'cd "$1" && CDPATH=$1/elsewhere:/ bash tree/list elsewhere/reel' bash "$tmp"
expect "with CDPATH, from another folder" 0 data/slow.csv ''
cp list "$tmp/elsewhere/copy"
alone="list: $tmp/elsewhere has no crates/ and crates.txt, which the lister is built from:"
run "$tmp/elsewhere/copy" data/sample.odr
expect "a copy without the repository" 1 $nothing "$alone run list in its repository, or make a link to it"
run "$tmp/elsewhere/copy" --help
expect "a copy's --help" 0 "$tmp/help" ''
check "nothing is built so far" [ ! -s "$CALLS" ]

# A clone says its commit, also where git is told of another repository, and that a file differs from it.
git=(git -C "$tree" -c user.name=test -c user.email=test@localhost -c commit.gpgsign=false)
"${git[@]}" init --quiet
"${git[@]}" add list
"${git[@]}" commit --quiet --message test
commit=$(git -C "$tree" rev-parse --short HEAD)
echo "list (Afondreth), commit $commit" >"$tmp/version"
GIT_DIR=$repository/.git run "$list" --version
expect "--version in a clone" 0 "$tmp/version" ''
echo "list (Afondreth), commit $commit-dirty" >"$tmp/version"
chmod -x list
run bash "$list" --version
chmod +x list
expect "--version in a clone with a changed file" 0 "$tmp/version" ''

# Building.
mkdir "$tmp/tools"
for tool in base64 bash cat dirname find head mkdir readlink rm sed timeout; do ln -s "$(command -v $tool)" "$tmp/tools/$tool"; done

# progress LAST: what is shown while the crates up to LAST are built.
progress() {
    local n=0 crate
    for crate in $crates; do
        n=$((n + 1))
        echo "list: building the lister: crate $n of $(wc -w <<<"$crates"), $crate"
        if [ "$crate" = "$1" ]; then break; fi
    done
}

PATH=$tmp/tools run "$new/list" data/sample.odr
expect "no rt" 1 $nothing "list: the lister is to be built, and the Rattle toolchain rt is not on the PATH"
: >"$new/target"
run "$new/list" data/sample.odr
expect "target cannot be made" 1 $nothing "list: the lister is to be built, and $new/target cannot be written"
rm "$new/target"
mkdir -p "$new/target/list.log"
run "$new/list" data/sample.odr
expect "target cannot be written" 1 $nothing "list: the lister is to be built, and $new/target cannot be written"
rm -r "$new/target"
run "$new/list" data/none.odr
expect "no such file, and nothing built" 1 $nothing "list: there is no file data/none.odr"
check "nothing is built for no file" [ ! -s "$CALLS" ]

FAILS=record run "$new/list" data/sample.odr
expect "a build that fails" 1 $nothing "$(progress record)
list: the build failed at record: $new/target/list.log has what rt said"
check "the log" grep -q '^rt: record proved' "$new/target/list.log"
FAILS=lister run "$new/list" data/sample.odr
expect "a build that fails at the last crate" 1 $nothing "$(progress lister)
list: the build failed at lister: $new/target/list.log has what rt said"
run "$new/list" - < <(cat data/slow.odr)
expect "built after a failure, the reel on standard input" 0 data/slow.csv "$(progress lister)"
: >"$CALLS"
run "$new/list" data/sample.odr
expect "built before" 0 data/sample.csv ''
PATH=$tmp/tools run "$new/list" data/sample.odr
expect "built before, no rt" 0 data/sample.csv ''
touch -d 2001-01-01 "$new/target/bin/lister"
run "$new/list" data/sample.odr
expect "built before, and what rt keeps is newer" 0 data/sample.csv ''
check "nothing is built twice" [ ! -s "$CALLS" ]

# newer NAME: the lister is built anew, from its own folder, and then not again.
asked() {
    for crate in $crates; do echo "$new/crates/$crate lib"; done | sed '$s/lib$/run/'
}
newer() {
    : >"$CALLS"
    CDPATH=$tmp:/ run "$new/list" data/sample.odr
    expect "$1: built anew" 0 data/sample.csv "$(progress lister)"
    check "$1: what rt is asked" diff "$CALLS" <(asked)
    run "$new/list" data/sample.odr
    expect "$1: built once" 0 data/sample.csv ''
}
touch -d 2001-01-01 "$new/target/bin/lister"
touch -d 2002-01-01 "$new/crates/record/src/lib.rt"
newer "a newer source"
touch -d 2003-01-01 "$new/target/bin/lister"
touch -d 2004-01-01 "$new/crates.txt"
newer "a newer crates.txt"
touch -d 2005-01-01 "$new/target/bin/lister"
rm "$new/crates/record/src/lib.rt"
newer "a source removed"
rm "$new/target/bin/lister"
newer "no program, and a stamp"

# A lister that fails, or that ends and has written nothing.
for end in 'exit 3' 'exit 0'; do
    printf '#!/bin/sh\ncat >/dev/null\n%s\n' "$end" >"$new/target/bin/lister"
    run "$new/list" data/sample.odr
    expect "a lister that does $end" 1 $nothing "list: $new/target/bin/lister failed"
done

# The bundled reels, and README.md: how the sample's listing begins.
check "data/make.py --check" python3 "$repository/data/make.py" --check
sed -n '/^    record,first_us/,/^$/s/^    //p' README.md >"$tmp/begins"
check "README.md shows a listing" [ -s "$tmp/begins" ]
check "README.md: the sample's listing" diff "$tmp/begins" <(head -n "$(wc -l <"$tmp/begins")" data/sample.csv)

# README.md's commands for a long reel, as they are printed, in a folder that has other files too.
sed -n '/^    ($/,/^    )$/s/^    //p' README.md >"$tmp/commands"
check "README.md has the commands" [ "$(grep -c '^[()]$' "$tmp/commands")" -eq 2 ]
long=$tmp/long
mkdir -p "$long/parts" "$tmp/temporary"
ln -s ../tree/list "$long/list"
echo "not a part" >"$long/parts/notes"
others() {
    find "$long" ! -name listing.csv -printf '%p %s %T@\n' | sort
}

# in_parts NAME STATUS FILE [TEXT]: the commands have that status, in a shell that goes on after them, listing.csv is then that
# file, and that text was said; without one, something was. Nothing else in the folder changed, and no temporary file is left.
in_parts() {
    local before
    echo old >"$long/listing.csv"
    before=$(others)
    TMPDIR=$tmp/temporary run bash -c 'cd "$1" && . ../commands; echo "the shell goes on: $?"' bash "$long"
    echo "the shell goes on: $2" >"$tmp/goes-on"
    if [ $# -eq 3 ] && [ -s "$tmp/err" ]; then : >"$tmp/err"; fi
    expect "in parts, $1" 0 "$tmp/goes-on" "${4-}"
    check "in parts, $1: the listing" cmp "$long/listing.csv" "$3"
    check "in parts, $1: other files" [ "$(others)" = "$before" ]
    check "in parts, $1: no temporary files" [ -z "$(ls -A "$tmp/temporary")" ]
}

# numbered NAME BYTES: a bundled reel five times, its records of so many bytes numbered through, so of 3 or 4 parts; and what its
# listing has to be, the bundled one numbered through. poke BYTE VALUES puts values into the reel.
numbered() {
    for _ in 1 2 3 4 5; do cat "data/$1.odr"; done | python3 -c 'import sys
reel, length = bytearray(sys.stdin.buffer.read()), int(sys.argv[1])
for n in range(len(reel) // length):
    reel[n * length + 2:n * length + 4] = (n + 1).to_bytes(2, "big")
sys.stdout.buffer.write(reel)' "$2" >"$long/reel.odr"
    { cat "data/$1.csv"; for _ in 2 3 4 5; do tail -n +2 "data/$1.csv"; done; } |
        awk -F, -v OFS=, 'NR > 1 { $1 = NR - 1 } 1' >"$tmp/wanted"
}
poke() {
    printf %b "$2" | dd of="$long/reel.odr" bs=1 seek="$1" conv=notrunc status=none
}
refused_at() { # LINES NUMBER: so many lines of the listing, and a refusal
    { head -n "$1" "$tmp/wanted"; echo "refused,$2"; } >"$tmp/refused"
}
part_at() {
    echo "the part with the refusal starts at byte $1 of reel.odr"
}

numbered sample 4390
in_parts "10,000 a second" 0 "$tmp/wanted" ''
numbered slow 790
in_parts "200 a second" 0 "$tmp/wanted" ''
# Of 82 records a part: record 100 is the 18th of the second part, and 83 its first. The compression becomes 0.
poke $((99 * 790)) '\x00'
refused_at 100 4
in_parts "a refusal in the second part" 2 "$tmp/refused" "$(sentence 4 $((17 * 790)) "after record 99")
$(part_at $((82 * 790)))"
poke $((82 * 790)) '\x00'
refused_at 83 4
in_parts "a refusal at the start of the second part" 2 "$tmp/refused" "$(sentence 4 0 "before any record")
$(part_at $((82 * 790)))"
poke 4 '\x00\x00'
refused_at 1 1
in_parts "word 3 is 0" 2 "$tmp/refused" "$(sentence 1 0 "before any record")
$(part_at 0)"
poke 4 '\xff\xff'
refused_at 1 2
in_parts "word 3 is 65,535" 2 "$tmp/refused" "$(sentence 2 0 "before any record")
$(part_at 0)"
printf '\x00\x01\x02' >"$long/reel.odr"
refused_at 1 1
in_parts "a reel of 3 bytes" 2 "$tmp/refused" "$(sentence 1 0 "before any record")
$(part_at 0)"
: >"$long/reel.odr"
head -n 1 "$tmp/wanted" >"$tmp/header"
in_parts "an empty reel" 0 "$tmp/header" ''
echo old >"$tmp/old"
rm "$long/reel.odr"
in_parts "no reel" 1 "$tmp/old"
mkdir "$long/reel.odr"
in_parts "a folder for a reel" 1 "$tmp/old"
rmdir "$long/reel.odr"
numbered slow 790
rm "$long/list"
in_parts "no ./list" 1 "$tmp/old"
printf '#!/bin/sh\necho "list: it fails" >&2\nexit 1\n' >"$long/list"
chmod +x "$long/list"
in_parts "a ./list that fails" 1 "$tmp/old" "list: it fails"
ln -sf ../tree/list "$long/list"
sed -i 's|^    listing=listing.csv$|    listing=/dev/full|' "$tmp/commands"
in_parts "a listing that cannot be written" 1 "$tmp/old"

if [ $failed -ne 0 ]; then
    echo "tests/list.sh: $failed cases failed, $passed passed" >&2
    exit 1
fi
echo "tests/list.sh: $passed cases passed"
