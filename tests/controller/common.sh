# Programs on bare cores and on x86-64, by the kit's clang and ld.lld alone. Sourced after tools/common.sh, from the root of the checkout.
made=target/controller
mkdir -p "$made"
bin=$(tools_folder)

# The machine that qemu runs for a target. Cortex-M0+ code runs on a Cortex-M0, which has the same instructions, with more flash and RAM
# than that board has.
qemu_for() {
    case $1 in
    cortex-m0plus) echo qemu-system-arm -M microbit -global nrf51-soc.flash-size=1048576 -global nrf51-soc.sram-size=1048576 ;;
    cortex-m3) echo qemu-system-arm -M mps2-an385 ;;
    cortex-m4*) echo qemu-system-arm -M mps2-an386 ;;
    cortex-m7*) echo qemu-system-arm -M mps2-an500 ;;
    cortex-m33*) echo qemu-system-arm -M mps2-an505 ;;
    rv32imac) echo qemu-system-riscv32 -M virt -bios none ;;
    esac
}

# install_qemu TARGET..: Debian's packages with the machines of these targets, and no more than they need
install_qemu() {
    local words=$*
    case $words in *cortex*) apt_options=--no-install-recommends install_for qemu-system-arm qemu-system-arm || return 1 ;; esac
    case $words in *rv32*) apt_options=--no-install-recommends install_for qemu-system-riscv32 qemu-system-misc || return 1 ;; esac
}

# make_seeds FILE OUT.c: the requests of a file like fuzz/seeds, for a program
make_seeds() {
    declared_calls | awk -f fuzz/seeds.awk - "$1" | awk '
        BEGIN { print "#include \"seeds.h\"" }
        {
            printf "static const uint8_t seed_%d[] = {", n++
            for (i = 1; i < length($2); i += 2) printf "0x%s,", substr($2, i, 2)
            print "};"
        }
        END {
            print "const seed seeds[] = {"
            for (i = 0; i < n; i++) printf "    { seed_%d, sizeof seed_%d },\n", i, i
            print "};\nconst size_t seed_count = sizeof seeds / sizeof *seeds;"
        }' >"$2"
}

# bare_objects TARGET FOLDER WORDS..: compiles the sources among the words with the flags among them, and start-up and C functions besides
bare_objects() {
    local target=$1 folder=$2 word source core start sources=() flags=()
    shift 2
    case $target in
    x86-64) core='--target=x86_64-unknown-linux-gnu -fno-stack-protector' start=x86 ;;
    cortex-*) core=$(core_flags "$target") start=arm ;;
    rv32*) core=$(core_flags "$target") start=riscv ;;
    esac
    for word in "$@" "tests/controller/start_$start.c" tests/controller/library.c; do
        case $word in
        -*) flags+=("$word") ;;
        *) sources+=("$word") ;;
        esac
    done
    rm -rf "$folder"
    mkdir -p "$folder"
    for source in "${sources[@]}"; do
        # shellcheck disable=SC2086 # words
        "$bin/clang" --no-default-config $core -std=gnu11 -O2 -ffreestanding -fno-builtin -ffunction-sections -fdata-sections -nostdinc \
            -Qunused-arguments -isystem tools/freestanding -isystem tests/controller/include -I include -I fuzz -I tests/controller -I "$made" \
            -Wall -Wextra -Werror "${flags[@]}" -c "$source" -o "$folder/$(basename "$source").o" || return 1
    done
}

# bare_link TARGET OUT FOLDER ARCHIVE [OPTION..]: links the objects of a folder with the library
bare_link() {
    local target=$1 out=$2 folder=$3 archive=$4 script=()
    shift 4
    case $target in
    # flash and RAM of that board as they are without TrustZone
    cortex-m33*) sed 's/ORIGIN = 0,/ORIGIN = 0x10000000,/; s/0x20000000/0x38000000/' tests/controller/arm.ld >"$made/m33.ld" && script=(-T "$made/m33.ld") ;;
    cortex-*) script=(-T tests/controller/arm.ld) ;;
    rv32*) script=(-T tests/controller/riscv.ld) ;;
    esac
    "$bin/ld.lld" -static --gc-sections "${script[@]}" "$@" "$folder"/*.o "$archive" -o "$out"
}

# run_bare TARGET PROGRAM [QEMU OPTION..]: what the program prints; its status
run_bare() {
    local target=$1 program=$2
    shift 2
    case $target in
    x86-64) "$program" ;;
    *) timeout 300 $(qemu_for "$target") "$@" -display none -serial none -monitor none -semihosting-config enable=on,target=native \
        -kernel "$program" </dev/null 2>&1 ;;
    esac
}

# run_example TARGET LIBRARY: whether the example prints there what it must
run_example() {
    bare_objects "$1" "$made/siding.$1.o" tests/controller/main.c examples/siding.c -Wconversion &&
        bare_link "$1" "$made/siding.$1" "$made/siding.$1.o" "$2" && run_bare "$1" "$made/siding.$1" | diff - examples/siding.expected
}

# Functions of the tests that are watched like calls, with what they call.
watched_callers='deliver put_one drop_one count_live'

# make_watched: what the program that looks at the stack is made of besides its sources
make_watched() {
    make_seeds tests/controller/largest "$made/seeds.c"
    { declared_calls; echo $watched_callers; } | tr ' ' '\n' | sed 's/^/watched /' >"$made/watched.inc"
}

# watch_program TARGET OUT ARCHIVE [FLAG]: the program that looks at the stack under the calls
watch_program() {
    local target=$1 out=$2 library=$3 machine wraps
    shift 3
    case $target in
    x86-64) machine=x86 ;;
    cortex-*) machine=arm ;;
    rv32*) machine=riscv ;;
    esac
    bare_objects "$target" "$out.o" tests/controller/stack.c tests/controller/delivery.c tests/controller/by_value.c "tests/controller/watch_$machine.S" tests/controller/lent.c fuzz/calls.c \
        fuzz/requests.c "$made/seeds.c" "$@" || return 1
    wraps=$(sed 's/^watched /--wrap=/' "$made/watched.inc")
    # shellcheck disable=SC2086 # words
    bare_link "$target" "$out" "$out.o" "$library" $wraps
}
