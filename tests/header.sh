#!/usr/bin/env bash
# Compares include/ketvaulo.h with the crates: each exported function and struct, parameter by parameter and field by field, and each
# refusal's name and number. Then compiles each header alone, as C and as C++, links a C++ program that has every call, and asks the library
# whether the header's sizes and limits are its own. Installs what is missing. KETVAULO_HEADER names another header. Last line: 'N passed, M
# failed'.
set -u
cd "$(dirname "$0")/.." && . tools/common.sh || exit 1
header=${KETVAULO_HEADER:-include/ketvaulo.h}
scratch=$(mktemp -d) || exit 1
trap 'rm -rf "$scratch"' EXIT

# The constants that the refusals ask for, by the definition that every contract speaks of: RootKeyLength is KV_ROOT_KEY_LENGTH.
numbered_by_crate() {
    echo 'KV_ACCEPTED 0'
    sed -nE 's/^reason_of \(?([A-Za-z0-9]*)( i\))? = (bare|located) ([0-9]*)( i)?$/\1 \4/p' crates/refusal/specs/*.antt |
        sed -e ':again' -e 's/^\([A-Za-z0-9_]*[a-z0-9]\)\([A-Z]\)/\1_\2/' -e 't again' | awk '{ print "KV_" toupper($1), $2 }'
}

# The two lists name by name: the same line in both passes, anything else fails.
compare() {
    local name
    while read -r name; do
        check "$name" same "$name"
    done < <(cut -d ' ' -f 1 "$scratch/crates" "$scratch/header" | sort -u)
}

same() {
    local crates header
    crates=$(grep "^$1 " "$scratch/crates")
    header=$(grep "^$1 " "$scratch/header")
    [ -n "$crates" ] && [ "$crates" = "$header" ] && return
    printf '%s\n  in the crates: %s\n  in the header: %s\n' "$1" "${crates:-nothing}" "${header:-nothing}"
    return 1
}

# The numbers of the refusals in the header are 0, 1, 2 and so on, in this order.
numbers_have_no_gap() { grep '^KV_' "$scratch/header" | awk '$2 != NR - 1 { print $1 " is not " NR - 1; wrong = 1 } END { exit wrong || !NR }'; }

# A C++ program that takes the address of every call; the library that it links with is installed as a C project would have it.
links_from_cpp() {
    local call
    tools/install target/prefix >"$scratch/install" 2>&1 || { cat "$scratch/install"; return 1; }
    {
        printf '#include "%s"\nvoid (*const volatile calls[])() = {\n' "$(realpath "$header")"
        sed -n 's/^\(kv_[a-z0-9_]*\) .*(.*/\1/p' "$scratch/crates" | while read -r call; do
            printf '    reinterpret_cast<void (*)()>(&%s),\n' "$call"
        done
        printf '};\nint main() { return calls[0] == nullptr; }\n'
    } >"$scratch/calls.cpp"
    c++ -std=c++17 $warnings "$scratch/calls.cpp" -Ltarget/prefix/lib -lketvaulo -o "$scratch/calls" && "$scratch/calls"
}

# Every call is marked so that a compiler warns where its answer is ignored, and every struct has its layout checked.
marked() {
    ! grep -E '^kv_[a-z0-9_]+ kv_[a-z0-9_]+\(' "$header" &&
        diff <(sed -n 's/^} \(kv_.*\);/\1/p' "$header") <(sed -n 's/^KV_LAYOUT(sizeof(\(kv_[a-z0-9_]*\)).*/\1/p' "$header")
}

# An answer that is ignored is warned of.
warns() {
    printf '#include "%s"\nvoid f(void) { %s }\n' "$(realpath "$header")" 'uint8_t out[32]; kv_sha256(NULL, 0, out, sizeof out);' >"$scratch/ignored.c"
    ! cc -std=c11 $warnings -c "$scratch/ignored.c" -o "$scratch/ignored.o" 2>/dev/null
}

# The texts of the refusals are the words of their comments.
same_words() { diff <(awk -f tools/refusals.awk "$header") <(grep 'case KV_' include/ketvaulo_text.h | grep -v KV_ACCEPTED); }

# The version is one, and the change log starts with it.
one_version() {
    [ "$(version)" = "$(sed -n 's/^#define KV_VERSION_M[AI][JN]OR //p; s/^#define KV_VERSION_PATCH //p' include/ketvaulo.h | paste -sd .)" ] &&
        grep -m 1 '^## ' CHANGELOG.md | grep -qF "## $(version)"
}

limits() { cc -std=c11 $warnings -I include tests/limits.c "$archive" -o "$scratch/limits" && "$scratch/limits"; }

install_for cc gcc c++ g++
warnings='-Wall -Wextra -Wpedantic -Werror'

{
    awk -f tools/exported.awk crates/*/src/*.rt
    numbered_by_crate
} >"$scratch/crates"
awk -f tools/header.awk "$header" >"$scratch/header"
compare
check 'the numbers have no gap' numbers_have_no_gap
check 'what is declared is marked' marked
check 'an ignored answer is warned of' warns
check 'the words of the refusals' same_words
check 'the version' one_version
for file in "$header" include/ketvaulo_*.h; do
    for standard in c99 c11; do
        check "$file as $standard" cc -std=$standard $warnings -Wno-unused-function -x c -fsyntax-only "$file"
    done
    for standard in c++11 c++17; do
        check "$file as $standard" c++ -std=$standard $warnings -Wno-unused-function -x c++ -fsyntax-only "$file"
    done
done
check 'a C++ program with every call' links_from_cpp
check 'sizes and limits' limits
tell_counts
