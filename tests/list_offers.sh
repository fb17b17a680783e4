#!/usr/bin/env bash
# Runs the listing program on inputs whose answers document 01 gives, and compares what it writes, to the byte. Takes the program's path
# (default: the one that rt ci and rt run leave in the crate's out/). Last line: 'N passed, M failed'. The status is 0 only if nothing failed.
set -u
shopt -s lastpipe # so that `is`, at the end of a pipe, counts
cd "$(dirname "$0")/.." && . tools/common.sh || exit 2
program=${1:-crates/list_offers/out/list_offers}
[ -x "$program" ] || { say "no program $program: run rt ci, or rt run in crates/list_offers, first"; exit 2; }
scratch=$(mktemp -d) || exit 2
trap 'rm -rf "$scratch"' EXIT

# bytes HEX..: the bytes, written in hexadecimal
bytes() { printf "$(printf '%s' "$@" | tr -d ' \n' | sed 's/../\\x&/g')"; }

# times N HEX: the bytes N times
times() { bytes "$(printf "$2%.0s" $(seq "$1"))"; }

# is NAME EXPECTED: standard input is the area; EXPECTED and a newline is what the program must write
is() {
    cat >"$scratch/area"
    printf '%s\n' "$2" >"$scratch/expected"
    check "$1" lists
}

lists() {
    local status
    "$program" <"$scratch/area" >"$scratch/written" 2>&1
    status=$?
    [ "$status" -eq 0 ] && cmp -s "$scratch/expected" "$scratch/written" && return
    echo "status $status, wrote '$(head -c 200 "$scratch/written" | tr '\n\0' '|.')', not '$(tr '\n' '|' <"$scratch/expected")'"
    return 1
}

kdf=18010002
name=17020003574c4e00

# document 01's example
bytes 18010002 18010001 17020003574c4e00 | is "document 01" $'offers 2\nkdf 2\nkdf 1\nname 3'

# accepted
bytes $name $kdf | is "name first" $'offers 1\nkdf 2\nname 3'
bytes $kdf 17010000 | is "empty name" $'offers 1\nkdf 2\nname 0'
bytes $kdf 17020004574c414e | is "name with no padding" $'offers 1\nkdf 2\nname 4'
bytes $kdf 1702000157000000 | is "name with three bytes of padding" $'offers 1\nkdf 2\nname 1'
bytes $kdf $kdf $name | is "a value twice" $'offers 2\nkdf 2\nkdf 2\nname 3'
bytes 1801ffff 18010000 $name | is "the largest and the least value" $'offers 2\nkdf 65535\nkdf 0\nname 3'
bytes 0001ffff $kdf 0a020000ffffffff $name 85010000 | is "others are stepped over" $'offers 1\nkdf 2\nname 3'
{ times 17 $kdf; bytes $name; } | is "17 offers" "offers 17$(for i in {1..17}; do printf '\nkdf 2'; done)"$'\nname 3'
{ bytes $kdf 17ff03f8; head -c 1016 /dev/zero | tr '\0' x; } | is "the longest name" $'offers 1\nkdf 2\nname 1016'

# 16: no length byte, length 0, past the end
bytes 18 | is "one byte" 'refused 16'
bytes $kdf $name 18 | is "one byte after the rest" 'refused 16'
bytes $kdf $name 18000001 | is "length 0" 'refused 16'
bytes $kdf $name 85 00 | is "length 0 of another attribute" 'refused 16'
bytes $kdf $name 180100 | is "ends one byte past the area" 'refused 16'
bytes $kdf $name 85020000000000 | is "another ends one byte past the area" 'refused 16'
bytes $kdf $name 1801 | is "ends two bytes past the area" 'refused 16'
bytes $kdf $name 85ff0000 | is "far past the end" 'refused 16'

# 17: AT_KDF of another length; 16 comes first
bytes 1802000200000000 $name | is "AT_KDF of length 2" 'refused 17'
bytes 18020002 | is "AT_KDF of length 2 past the end" 'refused 16'

# 18: the length disagrees; 29: the padding is not zero
bytes $kdf 1701000357 | is "name past its attribute" 'refused 18'
bytes $kdf 17030003574c4e0000000000 | is "a word too many" 'refused 18'
bytes $kdf 17020000 00000000 | is "a word too many for an empty name" 'refused 18'
bytes $kdf 17020005574c4e00 | is "a word too few" 'refused 18'
bytes $kdf 17020003574c4e01 | is "padding" 'refused 29'
bytes $kdf 1702000157000100 | is "padding in the middle" 'refused 29'
bytes $kdf 1701ffff | is "name length 65535" 'refused 18'

# 19: repeated, or missing; a fault of the second comes first
bytes $kdf $name $name | is "two names" 'refused 19'
bytes $kdf $name 17020003574c4e01 | is "a second name with padding" 'refused 29'
bytes $kdf | is "no name" 'refused 19'
printf '' | is "empty input" 'refused 19'

# 10: the eighteenth, or none
{ times 18 $kdf; bytes $name; } | is "18 offers" 'refused 10'
{ times 17 $kdf; bytes 1802000200000000 $name; } | is "the eighteenth of length 2" 'refused 17'
bytes $name | is "no offer" 'refused 10'

# the program's own limit
{ times 1024 85010000; } | is "4,096 bytes, stepped over" 'refused 19'
{ bytes $kdf $name; times 1021 85010000; } | is "4,096 bytes, read whole" $'offers 1\nkdf 2\nname 3'
{ bytes $kdf $name; times 1021 85010000; bytes 85; } | is "4,097 bytes" 'too long'
head -c 4095 /dev/zero | is "4,095 zero bytes" 'refused 16'
head -c 100000 /dev/zero | is "100,000 bytes" 'too long'

tell_counts
