#!/usr/bin/env bash
# Builds the library for the cores of controllers (tools/controller) and compares what it answers there, under qemu, with x86-64: byte for
# byte over every request of fuzz/seeds, over the accepted ones with each byte spoilt in turn, and over thousands of random requests, with
# buffers at every address. A new call needs its lines in fuzz/calls.c and fuzz/seeds, and no edit here. Then looks that wrappers made wrong
# on purpose are caught, and runs the example. The kit's clang and ld.lld compile and link everything; only qemu is installed. Takes half a
# minute on an idle machine. Last line: 'N passed, M failed'. With names of targets as arguments it compares these and cortex-m4 instead of
# the gate's three.
set -u
cd "$(dirname "$0")/.." && . tools/common.sh && . tests/controller/common.sh || exit 1
targets=${*:-cortex-m4 cortex-m0plus rv32imac}
case " $targets " in *' cortex-m4 '*) ;; *) targets="cortex-m4 $targets" ;; esac
answers="tests/controller/answers.c tests/controller/lent.c fuzz/calls.c fuzz/requests.c $made/seeds.c"

# build TARGET NAME [OPTION]: the library for a core, below NAME
build() {
    local target=$1 name=$2
    shift 2
    tools/controller "$@" "$target" "$made/$name" >/dev/null
}

# compile TARGET FOLDER [FLAG..]: the objects of the program that makes the requests
# shellcheck disable=SC2086 # words
compile() {
    local target=$1 folder=$2
    shift 2
    bare_objects "$target" "$made/$folder" $answers "$@"
}

# answers TARGET NAME [FOLDER]: what the program of these objects prints there is what it prints on x86-64
answers() {
    local out=$made/$2/answers
    bare_link "$1" "$out" "$made/${3:-$1.o}" "$made/$2/lib/libketvaulo.a" || return 1
    run_bare "$1" "$out" >"$out.out" || { tail -n 3 "$out.out"; return 1; }
    [ "$1" != x86-64 ] || return 0
    diff "$made/x86-64/answers.out" "$out.out" | head -n 5
    cmp -s "$made/x86-64/answers.out" "$out.out"
}

# The last lines have the answers that each call gave. One that no request brought about is missing in fuzz/seeds.
on_x86_64() {
    mkdir -p "$made/x86-64/lib" && cp "$archive" "$made/x86-64/lib/libketvaulo.a" && compile x86-64 x86-64.o || return 1
    answers x86-64 x86-64 && return
    tail -n 20 "$made/x86-64/answers.out"
    return 1
}

# is_caught SED-SCRIPT: wrappers spoilt by it are built, and answer otherwise
is_caught() {
    WRAPPERS_EDIT=$1 build cortex-m4 wrong || return 1
    ! answers cortex-m4 wrong >"$made/wrong/answers.diff" && ! grep -q FAULT "$made/wrong/answers.diff"
}

# trap_is_set: the library that is built without regard to the trap ends in it
trap_is_set() { answers cortex-m4 cortex-m4 strict.o | grep -q FAULT; }

# refuses_widths: a module in which a pointer is made a number is no module for another core
refuses_widths() {
    "$bin/clang" -S -emit-llvm -Xclang -disable-llvm-passes -x ir "$module" -o "$made/module.ll" || return 1
    awk '{ print } /^define internal .*::kv_sha256"/ { getline; print; print "  %wide = ptrtoint ptr %a0 to i64" }' \
        "$made/module.ll" >"$made/wide.ll"
    grep -q ptrtoint "$made/wide.ll" && ! KETVAULO_MODULE=$made/wide.ll tools/controller cortex-m4 "$made/wide" >/dev/null 2>&1
}

# shellcheck disable=SC2086 # words
install_qemu $targets || say 'qemu is missing'
check 'the archive' make_archive
check 'the module' make_module
check 'the program has every call of the header' \
    diff <(declared_calls) <(sed -n 's/.*\.name = "\(kv_[a-z0-9_]*\)".*/\1/p' fuzz/calls.c)
make_seeds fuzz/seeds "$made/seeds.c"
check 'x86-64: every answer of every call' on_x86_64
for target in $targets; do
    check "$target: the library" build "$target" "$target"
    check "$target: the program" compile "$target" "$target.o"
    check "$target: the same answers" answers "$target" "$target"
done
for target in x86-64 $targets; do check "$target: the example" run_example "$target" "$made/$target/lib/libketvaulo.a"; done
check 'unaligned access trapped: the library' build cortex-m4 strict --trap-unaligned
check 'unaligned access trapped: the program' compile cortex-m4 strict.o -DTRAP_UNALIGNED -mno-unaligned-access
check 'unaligned access trapped: the same answers' answers cortex-m4 strict strict.o
check 'unaligned access trapped: indeed' trap_is_set
check 'caught: a length cut to 8 bits' is_caught '/ kv_usage_key(/,/^}/s/), data_len, /), (uint8_t)data_len, /'
check 'caught: a number cut to 32 bits' is_caught '/ kv_usage_key(/,/^}/s/, n, /, (uint32_t)n, /'
check 'caught: two slices exchanged' \
    is_caught '/ kv_visited_master_key(/,/^}/s/slice(server_id), server_id_len, slice(domain), domain_len/slice(domain), domain_len, slice(server_id), server_id_len/'
check 'caught: an answer that lacks a field' is_caught '/ kv_read_area(/,/^}/s/return answer/answer.name_at = 0; return answer/'
check 'refused: a module that knows how wide a pointer is' refuses_widths
tell_counts
