#!/usr/bin/env bash
# Compares the archive that the kit makes with the module from which the archives for controllers are made (tools/controller): the object that
# the kit's clang makes of that module is the object in the archive, byte for byte. Since the two come from two builds, this also shows that a build
# can be repeated. Last line: 'N passed, M failed'.
set -u
cd "$(dirname "$0")/.." && . tools/common.sh || exit 1
made=$(mktemp -d) && bin=$(tools_folder) || exit 1
trap 'rm -rf "$made"' EXIT

# compile_module: the object of the module, by the words that rattle gave to clang
compile_module() {
    local word last='' words=()
    while read -r word; do
        case $last:$word in -o:*) word=$made/module.o ;; *.bc) word=$module ;; esac
        words+=("$word")
        last=$word
    done <"$module_flags"
    "$bin/clang" "${words[@]}"
}

check 'the archive' make_archive
check 'the module' make_module
check 'the object in the archive' eval '"$bin/llvm-ar" p "$archive" >"$made/archive.o"'
check 'the object of the module' compile_module
check 'one object' cmp "$made/archive.o" "$made/module.o"
check 'one archive of two builds' cmp "$archive" target/module/libketvaulo.a
tell_counts
