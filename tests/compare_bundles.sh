#!/usr/bin/env bash
# Runs the program that compares two bundles on files whose differences are known by how they are made here, from document 02's requests 9
# and 10, and compares what it writes, to the byte. Takes the program's path (default: the one that rt ci and rt run leave in the crate's out/). Last line: 'N passed, M
# failed'. The status is 0 only if nothing failed.
set -u
cd "$(dirname "$0")/.." && . tools/common.sh || exit 2
program=${1:-crates/compare_bundles/out/compare_bundles}
[ -x "$program" ] || { say "no program $program: run rt ci, or rt run in crates/compare_bundles, first"; exit 2; }
program=$(realpath "$program")
data=$PWD/crates/compare_bundles/data
scratch=$(mktemp -d) || exit 2
trap 'rm -rf "$scratch"' EXIT
cd "$scratch" || exit 2

# times N TEXT: the text N times
times() { printf "$2%.0s" $(seq "$1"); }

# id BYTE: a Key ID of one byte sixteen times, in hexadecimal
id() { times 16 "$1"; }

# attribute BYTE [LAST [LENGTH]]: a Key attribute in hexadecimal: its Key ID, its last byte (default 55), its length (default 76)
attribute() {
    local length=${3:-76}
    printf '01%02x0000000000074b4b4b4b4b4b4b4b4b4b4b4b4b4b4b4b%s00000e10a6a6a6a6a6a6a6a6%s%s\n' \
        "$length" "$(id "$1")" "$(times $((length - 53)) 55)" "${2:-55}"
}

# bundle ATTRIBUTE..: the file of attributes in hexadecimal
bundle() {
    local offset=$((2 + 20 * $#)) one
    printf '%04x' $#
    for one in "$@"; do
        printf '%s%04x%04x' "${one:48:32}" "$offset" $((${#one} / 2))
        offset=$((offset + ${#one} / 2))
    done
    printf '%s' "$@"
}

# file NAME HEX: makes a file of bytes in hexadecimal
file() { printf "$(printf '%s' "$2" | sed 's/../\\x&/g')" >"$1"; }

# line KIND ID: a line of the list
line() {
    case $1 in
    1) printf 'only in the first   %s\n' "$2" ;;
    2) printf 'changed             %s\n' "$2" ;;
    3) printf 'only in the second  %s\n' "$2" ;;
    esac
}

# counts FIRST CHANGED SECOND: the last line
counts() { printf '%s only in the first, %s changed, %s only in the second\n' "$@"; }

# shown FILE: its first bytes in a line
shown() { head -c 300 "$1" | tr '\n\0' '|.'; }

# runs ARGUMENT..: whether the program, with these arguments, writes the files 'expected' and 'told', and nothing else
runs() {
    local status
    "$program" "$@" >written 2>failed
    status=$?
    [ "$status" -eq 0 ] && cmp -s expected written && cmp -s told failed && return
    echo "status $status, wrote '$(shown written)' and '$(shown failed)', not '$(shown expected)' and '$(shown told)'"
    return 1
}

# is NAME FIRST SECOND: standard input is what the program must write for two files in hexadecimal
is() {
    cat >expected
    : >told
    file first "$2"
    file second "$3"
    check "$1" runs first second
}

a=$(attribute 61) b=$(attribute 62) c=$(attribute 63)

# ---- what changed
is 'the same' "$(bundle "$a")" "$(bundle "$a")" <<<"$(counts 0 0 0)"
is 'the same in another order' "$(bundle "$a" "$b" "$c")" "$(bundle "$c" "$a" "$b")" <<<"$(counts 0 0 0)"
is 'one gone' "$(bundle "$a" "$b")" "$(bundle "$a")" < <(line 1 "$(id 62)"; counts 1 0 0)
is 'one new' "$(bundle "$a")" "$(bundle "$b" "$a")" < <(line 3 "$(id 62)"; counts 0 0 1)
is 'another last byte' "$(bundle "$a")" "$(bundle "$(attribute 61 54)")" < <(line 2 "$(id 61)"; counts 0 1 0)
is 'another length' "$(bundle "$a")" "$(bundle "$(attribute 61 55 84)")" < <(line 2 "$(id 61)"; counts 0 1 0)
is 'another type' "$(bundle "$a")" "$(bundle "02${a:2}")" < <(line 2 "$(id 61)"; counts 0 1 0)
is 'none in common' "$(bundle "$a" "$b")" "$(bundle "$c")" < <(line 1 "$(id 61)"; line 1 "$(id 62)"; line 3 "$(id 63)"; counts 2 0 1)
is 'the digits of a Key ID' "$(bundle "$a")" "$(bundle "${a:0:48}000102030405060708090a0bf0e1d2c3${a:80}")" \
    < <(line 1 "$(id 61)"; line 3 000102030405060708090a0bf0e1d2c3; counts 1 0 1)
# 5, 6, 7, 8 against 9, 8, 7, 6: 5 is only in the first, 6 has another last byte, 7 agrees, 8 has another length, 9 is only in the second
before=$(bundle "$(attribute 05)" "$(attribute 06)" "$(attribute 07)" "$(attribute 08 55 84)")
after=$(bundle "$(attribute 09)" "$(attribute 08)" "$(attribute 07)" "$(attribute 06 01)")
is 'every kind' "$before" "$after" < <(line 1 "$(id 05)"; line 2 "$(id 06)"; line 2 "$(id 08)"; line 3 "$(id 09)"; counts 1 2 1)
is 'the other way round' "$after" "$before" < <(line 1 "$(id 09)"; line 2 "$(id 08)"; line 2 "$(id 06)"; line 3 "$(id 05)"; counts 1 2 1)
check 'the files of the crate: the first' cmp first "$data/second"
check 'the files of the crate: the second' cmp second "$data/first"
# 64 and 64: the largest files, of attributes of 252 bytes; the longest list, and none
largest() { bundle $(for i in $(seq "$1" "$2"); do attribute "$(printf %02x "$i")" 55 252; done); }
low=$(largest 0 63) high=$(largest 64 127)
is '64 against 64 others' "$low" "$high" < <(for i in {0..63}; do line 1 "$(id "$(printf %02x "$i")")"; done
    for i in {64..127}; do line 3 "$(id "$(printf %02x "$i")")"; done
    counts 64 0 64)
is '64 against themselves' "$low" "$low" <<<"$(counts 0 0 0)"
cp first one
counts 0 0 0 >expected
check 'a file against itself' runs one one

# ---- refusals: each number of either file; the first's before the second's
good=$(bundle "$a")
is '39, the first' '' "$good" <<<'refused 39: the first file'
is '39, the second' "$good" 00 <<<'refused 39: the second file'
is '39, no attribute' "0000${good:4}" "$good" <<<'refused 39: the first file'
is '39, 65 attributes' "$good" "$(bundle $(for i in {0..64}; do attribute "$(printf %02x "$i")"; done))" <<<'refused 39: the second file'
is '40, the first' "${good:0:42}" "$good" <<<'refused 40: the first file'
is '40, the second' "$good" "${good:0:36}0017${good:40}" <<<'refused 40: the second file'
is '41, the first' "${good}00" "$good" <<<'refused 41: the first file'
is '41, the second' "$good" "${good:0:-2}" <<<'refused 41: the second file'
is '42, the first' "$(bundle "$a" "$b" "$a")" "$good" <<<'refused 42: the first file'
is '42, the second' "$good" "$(bundle "$a" "$a")" <<<'refused 42: the second file'
is '24, the second' "$good" "$(bundle "${a:0:2}54${a:4}")" <<<'refused 24: the second file'
is '20, the first' "$(bundle "00${a:2}")" "$good" <<<'refused 20: the first file'
is '25, the second' "$good" "$(bundle "${a:0:4}01${a:6}")" <<<'refused 25: the second file'
is '26, the first' "$(bundle "${a:0:6}01${a:8}")" "$good" <<<'refused 26: the first file'
is '27, the second' "$good" "$(bundle "${a:0:102}a7${a:104}")" <<<'refused 27: the second file'
is '50, the first' "${good:0:4}62${good:6}" "$good" <<<'refused 50: the first file'
is '50 of the first, 39 of the second' "${good:0:4}62${good:6}" '' <<<'refused 50: the first file'
is '39 of both' '' '' <<<'refused 39: the first file'

# ---- files that are too long, and no files
is '17,411 bytes, the first' "${low}00" "$good" <<<'the first file has over 17,410 bytes, which no bundle has'
is '17,411 bytes, the second' "$good" "${low}00" <<<'the second file has over 17,410 bytes, which no bundle has'
head -c 100000 /dev/zero >long
: >told
echo 'the second file has over 17,410 bytes, which no bundle has' >expected
check '100,000 bytes' runs one long

# tells NAME TEXT ARGUMENT..: what the program must write to standard error, and nothing else
tells() {
    local name=$1
    : >expected
    printf '%s\n' "$2" >told
    shift 2
    check "$name" runs "$@"
}
usage='usage: compare_bundles FIRST SECOND'
tells 'no argument' "$usage"
tells 'one argument' "$usage" first
tells 'three arguments' "$usage" first second first
tells 'no such file' 'absent: No such file or directory' absent one
tells 'no such second file' 'absent: No such file or directory' one absent
tells 'a folder' '.: Is a directory' . one
tells 'an empty name' ': No such file or directory' '' one
tells 'a name that is too long' 'file name: File name too long' "$(times 4097 x)" one

tell_counts
