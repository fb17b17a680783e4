#!/usr/bin/env bash
# Looks at what a call lets be known of a secret besides its answer. Every call that takes a secret is made, accepted and refused, in many sizes
# (tests/secrets/cases.c), with several sets of secrets that differ in nothing else:
# - In time: on x86-64 no branch and no address depends on a secret, by valgrind's memcheck, but for what tests/secrets/memcheck.supp allows; on Cortex-M4,
#   Cortex-M0+ and rv32imac the same blocks of instructions run for all zeros, all ones and three other sets, by qemu's log.
# - On the stack: after a call and kv_wipe_stack no byte differs between the sets. Without the wipe some do, so that the test can see them.
# - The wipe also holds for callers with large frames that wipe as the last thing that they do (tests/secrets/callers.c), by gcc and clang at every level, with a
#   stack protector and without.
# A comparison that stops at the first difference, and a wipe that is reached by a jump, must be caught. 'tests/secrets.sh residue' prints what each call leaves.
# Takes half a minute. Last line: 'N passed, M failed'.
set -u
cd "$(dirname "$0")/.." && . tools/common.sh && . tests/controller/common.sh || exit 1
targets='cortex-m4 cortex-m0plus rv32imac'

# machine TARGET: the name by which tests/controller has its start-up and watcher
machine() { case $1 in x86-64) echo x86 ;; cortex-*) echo arm ;; *) echo riscv ;; esac; }

library() { case $1 in x86-64) echo "$archive" ;; *) echo "$made/$1/lib/libketvaulo.a" ;; esac; }

# watched OBJECTS-FOLDER TARGET NAMES..: links a program in which these functions are watched
watched() {
    local folder=$1 target=$2
    shift 2
    # shellcheck disable=SC2046 # words
    bare_link "$target" "$folder.program" "$folder" "$(library "$target")" $(printf ' --wrap=%s' "$@")
}

# ---- time
memcheck() { # NAME [FLAG..]: status 0 where nothing but what is allowed depends on a secret
    local out=$made/memcheck.$1
    shift
    gcc -O2 -Wall -Wextra -I include -I tests/secrets "$@" tests/secrets/memcheck.c tests/secrets/cases.c "$archive" -o "$out" || return 2
    valgrind -q --error-exitcode=9 --suppressions=tests/secrets/memcheck.supp "$out" >"$out.log" 2>&1
    case $?:$(grep -c '^done$' "$out.log") in
    0:1) return 0 ;;
    9:1) return 9 ;;
    *) cat "$out.log" && return 2 ;;
    esac
}

memcheck_catches() { memcheck wrong -DWRONG_COMPARISON; [ $? -eq 9 ]; }

# trace TARGET NAME FLAG..: the sum of the addresses of all blocks that ran
trace() {
    local target=$1 name=$made/trace.$1.$2
    shift 2
    bare_objects "$target" "$name" tests/secrets/trace.c tests/secrets/cases.c -Itests/secrets "$@" && bare_link "$target" "$name.program" "$name" "$(library "$target")" || return 1
    run_bare "$target" "$name.program" -d exec,nochain -D "$name.log" >&2 || return 1
    [ "$(wc -l <"$name.log")" -gt 10000 ] && sed -E 's,^Trace [^[]*\[[0-9a-f]+/([0-9a-f]+)/.*,\1,' "$name.log" | sha256sum
    rm -f "$name.log"
}

# traces TARGET FLAG..: how many different traces the five sets have; nothing where one was not made
traces() {
    local target=$1 set sums=
    shift
    for set in 0 1 2 3 4; do sums+=$(trace "$target" "$set" -DSET="$set" "$@") || return 1; sums+=$'\n'; done
    printf '%s' "$sums" | sort -u | wc -l
}
same_traces() { [ "$(traces "$1")" = 1 ]; }
trace_catches() { [ "$(traces cortex-m4 -DWRONG_COMPARISON)" -gt 1 ]; }

# ---- the stack
residue() { # TARGET: 'CALL REFUSAL STACK REGISTERS STACK-AFTER-WIPE' for each case
    local folder=$made/residue.$1
    declared_calls | sed 's/^/watched /' >"$made/watched.inc"
    # shellcheck disable=SC2046 # words
    bare_objects "$1" "$folder" tests/secrets/residue.c tests/secrets/cases.c "tests/controller/watch_$(machine "$1").S" -Itests/secrets &&
        watched "$folder" "$1" $(declared_calls) && run_bare "$1" "$folder.program" >"$folder.out" && return
    cat "$folder.out"
    return 1
}
wiped() { ! awk '$5 > 0' "$made/residue.$1.out" | grep .; }
sees() { awk '$3 > most[$1] { most[$1] = $3 } $2 == 0 { met[$1] = 1 } END { for (call in met) if (most[call] < 64) exit 1; exit !NR }' "$made/residue.$1.out"; }

# compiler TARGET NAME: the command by which gcc or the kit's clang compiles for a target
compiler() {
    case $2:$1 in
    gcc:x86-64) echo gcc -fno-pie -mstack-protector-guard=global ;;
    gcc:cortex-*) echo "arm-none-eabi-gcc -mthumb -mcpu=$1" ;;
    clang:x86-64) echo "$bin/clang --no-default-config --target=x86_64-unknown-linux-gnu -mstack-protector-guard=global -nostdinc -isystem tools/freestanding" ;;
    clang:*) echo "$bin/clang --no-default-config $(core_flags "$1") -nostdinc -isystem tools/freestanding" ;;
    esac
}

# callers TARGET [FLAG..]: compiles the callers in every way and runs them: 'CALLER BYTES' for each
callers() {
    local target=$1 folder=$made/wipe.$1 build level protector who name
    shift
    : >"$made/callers.inc" && : >"$made/watched.inc"
    for who in gcc clang; do for level in O0 O1 O2 O3 Os; do for protector in plain strong; do for name in sign usage login wrap handover; do
        printf 'CALLER(%s_%s_%s_%s)\n' $who $level $protector $name >>"$made/callers.inc"
        printf 'watched %s_%s_%s_%s\n' $who $level $protector $name >>"$made/watched.inc"
    done; done; done; done
    bare_objects "$target" "$folder" tests/secrets/wipe.c "tests/controller/watch_$(machine "$target").S" -Itests/secrets || return 1
    for who in gcc clang; do for level in O0 O1 O2 O3 Os; do for protector in plain strong; do
        build=${who}_${level}_$protector
        case $protector in plain) name=-fno-stack-protector ;; *) name=-fstack-protector-strong ;; esac
        # shellcheck disable=SC2046 # words
        $(compiler "$target" $who) -$level $name -ffreestanding -Wall -Wextra -Werror -I include -I tests/secrets -DBUILD="$build" "$@" \
            -c tests/secrets/callers.c -o "$folder/$build.o" || return 1
    done; done; done
    # shellcheck disable=SC2046 # words
    watched "$folder" "$target" $(sed 's/watched //' "$made/watched.inc") && run_bare "$target" "$folder.program" >"$folder.out" && return
    tail -n 3 "$folder.out"
    return 1
}
wipe_holds() { callers "$1" && [ "$(wc -l <"$made/wipe.$1.out")" -eq 100 ] && ! awk '$2 > 0' "$made/wipe.$1.out" | grep .; }
wipe_catches() { callers "$1" -DWRONG_WIPE && grep -qE '^gcc_O2_plain_sign [1-9]' "$made/wipe.$1.out"; }

apt_options=--no-install-recommends install_for gcc gcc arm-none-eabi-gcc gcc-arm-none-eabi /usr/include/valgrind/memcheck.h valgrind || say "a compiler or valgrind is missing"
# shellcheck disable=SC2086 # words
install_qemu $targets || say 'qemu is missing'
check 'the archive' make_archive
check 'the module' make_module
for target in $targets; do check "$target: the library" eval 'tools/controller $target "$made/$target" >/dev/null'; done
if [ "${1:-}" = residue ]; then
    for target in x86-64 $targets; do residue "$target" && sed "s/^/$target /" "$made/residue.$target.out"; done
    exit
fi
check 'x86-64: no branch and no address by a secret' memcheck right
check 'x86-64: a comparison that stops early is caught' memcheck_catches
for target in $targets; do check "$target: the same blocks for all secrets" same_traces "$target"; done
check 'cortex-m4: a comparison that stops early is caught' trace_catches
for target in x86-64 $targets; do
    check "$target: what the calls leave" residue "$target"
    check "$target: nothing is left after the wipe" wiped "$target"
    check "$target: something is left without it" sees "$target"
done
for target in x86-64 cortex-m4 cortex-m0plus; do check "$target: callers that wipe last" wipe_holds "$target"; done
for target in x86-64 cortex-m4; do check "$target: a wipe that is reached by a jump is caught" wipe_catches "$target"; done
tell_counts
