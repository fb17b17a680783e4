#!/usr/bin/env bash
# Paints the stack under every call of the library at its largest input (tests/controller/largest), and under a function that derives a handover
# key inside a key delivery (tests/controller/delivery.c), on x86-64 and on the cores of controllers under qemu, and holds the deepest use against
# tests/stack.txt. Beside it stands what no input can pass: the deepest way through the call graph of the compiled code (tests/controller/depth.awk), in which
# nothing may call itself or a computed address. Looks too that include/ketvaulo_wipe.h wipes as much as any call takes, and that kv_wipe wipes.
# A new call needs its request in that file and its lines in tests/stack.txt, which 'tests/stack.sh update' writes. Last line: 'N passed, M failed'.
set -u
cd "$(dirname "$0")/.." && . tools/common.sh && . tests/controller/common.sh || exit 1
table=tests/stack.txt
targets='x86-64 cortex-m4 cortex-m0plus rv32imac'

# measure TARGET: 'CALL REFUSAL STACK INSTRUCTIONS' for each call
measure() {
    local library=$made/$1/lib/libketvaulo.a
    case $1 in
    x86-64) library=$archive && list_module "$made/stack.x86-64.s" || return 1 ;;
    *) KETVAULO_LISTING=$made/stack.$1.s tools/controller "$1" "$made/$1" >/dev/null || return 1 ;;
    esac
    watch_program "$1" "$made/stack.$1" "$library" && run_bare "$1" "$made/stack.$1" >"$made/stack.$1.out" && return
    cat "$made/stack.$1.out"
    return 1
}

# list_module FILE.s: the module compiled as for the archive, as text, and FILE.su with the frames
list_module() {
    local word last='' words=()
    while read -r word; do
        case $last:$word in *:-c | *:-o | -o:*) ;; *.bc) words+=("$module") ;; *) words+=("$word") ;; esac
        last=$word
    done <"$module_flags"
    "$bin/clang" "${words[@]}" -S -fstack-usage -o "$1"
}

# bound TARGET: 'CALL BYTES' by the call graph
bound() {
    local machine
    case $1 in x86-64) machine=x86 ;; cortex-*) machine=arm ;; *) machine=riscv ;; esac
    awk -v machine=$machine -f tests/controller/depth.awk "$made/stack.$1.su" "$made/stack.$1.s" >"$made/stack.$1.bound"
}
in_bound() { awk -v call="$1" '$1 == call { print $2 }' "$made/stack.$2.bound"; }

# below_bound CALL TARGET: the painted stack is not deeper than the call graph lets it be, and that is what the table has
below_bound() {
    local most
    most=$(in_bound "$1" "$2")
    if [ -n "$most" ] && [ "$(of "$1" "$2" 3)" -le "$most" ] && [ "$most" = "$(in_table "$1.most" "$2")" ]; then return; fi
    echo "$1 takes up to ${most:-?} bytes, $(in_table "$1.most" "$2") in the table"
    return 1
}

# of CALL TARGET FIELD: a figure of the last measurement; the largest, where a call has more than one request
of() { awk -v call="$1" -v field="$3" '$1 == call && $field + 0 >= most { most = $field + 0; seen = 1 } END { if (seen) print most }' "$made/stack.$2.out"; }

# in_table CALL TARGET
in_table() { awk -v call="$1" -v target="$2" '$1 == "call" { for (i = 2; i <= NF; i++) place[$i] = i } $1 == call { print $place[target] }' "$table"; }

accepted() { [ "$(of "$1" "$2" 2)" = 0 ] || { echo "no accepted request of $1 in tests/controller/largest"; return 1; }; }

within_table() {
    local measured allowed
    measured=$(of "$1" "$2" 3)
    allowed=$(in_table "$1" "$2")
    if [ -n "$measured" ] && [ -n "$allowed" ] && [ "$measured" -le "$allowed" ]; then return; fi
    echo "$1 takes ${measured:-?} bytes, ${allowed:-none} in the table"
    return 1
}

# kv_wipe of a key in a function's frame: it was there, and is no more
wipes_a_secret() { [ "$(of kv_wipe "$1" 2)" -ge 32 ] && [ "$(of kv_wipe "$1" 3)" -lt 8 ]; }

wipes_enough() { awk -v most="$(sed -n 's/^#define KV_STACK_BYTES //p' include/ketvaulo_wipe.h)" '/^kv_/ { for (i = 2; i <= NF; i++) if ($i > most) exit 1 }' "$table"; }

update() {
    local call target
    {
        cat <<'HEAD'
# The bytes of stack that each call takes at its largest input, below the frame of its caller. On x86-64 the return address is counted; elsewhere it is
# in a register. Four lines are of functions of the tests, with what they call: `deliver` is a handover inside a key delivery, `put_one`, `drop_one` and
# `count_live` make a call that takes the slots by value. CALL.most is what no input can pass, by the call graph, with 32 bytes for memcpy and memset.
# tests/stack.sh holds the library against this, and 'tests/stack.sh update' writes it.
HEAD
        # shellcheck disable=SC2086 # words
        row call $targets
        for call in $(declared_calls) $watched_callers; do
            # shellcheck disable=SC2046 # words
            row "$call" $(for target in $targets; do of "$call" "$target" 3; done)
        done
        for call in $(declared_calls); do
            # shellcheck disable=SC2046 # words
            row "$call.most" $(for target in $targets; do in_bound "$call" "$target"; done)
        done
    } >"$made/stack.txt"
    cp "$made/stack.txt" "$table"
}
row() {
    printf '%-24s' "$1"
    shift
    printf ' %13s' "$@"
    printf '\n'
}

# shellcheck disable=SC2086 # words
install_qemu $targets || say 'qemu is missing'
check 'the archive' make_archive
check 'the module' make_module
make_watched
for target in $targets; do
    check "$target: the program" measure "$target"
    check "$target: no recursion, no computed call" bound "$target"
done
[ "${1:-}" != update ] || update
for target in $targets; do
    for call in $(declared_calls); do
        check "$target: $call at its largest" accepted "$call" "$target"
        check "$target: the stack of $call" within_table "$call" "$target"
        check "$target: the most that $call can take" below_bound "$call" "$target"
    done
    for call in $watched_callers; do
        check "$target: $call" accepted "$call" "$target"
        check "$target: the stack of $call" within_table "$call" "$target"
    done
    check "$target: a secret that is wiped" wipes_a_secret "$target"
done
check 'the table has the calls of the header' diff <(declared_calls) <(awk '/^kv_[a-z0-9_]* / { print $1 }' "$table")
check 'the wipe is as large as any call' wipes_enough
tell_counts
