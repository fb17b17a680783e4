# Sourced by the scripts beside it, from the root of the checkout. Everything is built below target/bench.
. tools/common.sh
room=target/bench
mkdir -p "$room"

stop() { say "$*"; exit 1; }
quiet() { "$@" >"$room/log" 2>&1 || { cat "$room/log" >&2; stop "failed: $*"; }; } # COMMAND: shows its output only where it fails

# The libraries: for each what calls of ketvaulo.h are made of, and what else is linked.
libraries='ketvaulo bearssl bearssl-small mbedtls wolfssl openssl'
compile="gcc -O2 -Wall -Wextra -ffunction-sections -fdata-sections -I include -I bench"
parts() { # NAME: object files and libraries, for the linker
    local o=$room/$1.o
    case $1 in
    ketvaulo) echo "$archive" ;;
    by-hand) echo "$room/calls.o" ;;
    bearssl*) echo "$o $room/calls.o -l:libbearssl.a" ;;
    mbedtls) echo "$o $room/calls.o -Wl,--wrap=mbedtls_aesni_has_support -l:libmbedcrypto.a" ;;
    wolfssl) echo "$o $room/calls.o -l:libwolfssl.a -lm" ;;
    openssl) echo "$o $room/calls.o -l:libcrypto.a -ldl -pthread" ;;
    esac
}

# Builds the program measure.NAME for each library.
build_programs() {
    local lib heap='-Wl,--wrap=malloc,--wrap=calloc,--wrap=realloc,--wrap=free'
    install_for gcc gcc ld binutils /usr/include/stdio.h libc6-dev valgrind valgrind /usr/include/bearssl.h libbearssl-dev \
        /usr/include/mbedtls/aes.h libmbedtls-dev /usr/include/wolfssl/options.h libwolfssl-dev /usr/include/openssl/sha.h libssl-dev
    make_archive
    say "building in $room"
    for lib in calls jobs measure; do $compile -c "bench/$lib.c" -o "$room/$lib.o"; done
    $compile -DAES=big -c bench/peer_bearssl.c -o "$room/bearssl.o"
    $compile -DAES=small -c bench/peer_bearssl.c -o "$room/bearssl-small.o"
    for lib in mbedtls wolfssl openssl; do $compile -c "bench/peer_$lib.c" -o "$room/$lib.o"; done
    # shellcheck disable=SC2046 # parts are words
    for lib in $libraries; do
        gcc -static -Wl,--gc-sections $heap "$room/measure.o" "$room/jobs.o" $(parts "$lib") -o "$room/measure.$lib"
    done
}

# OpenSSL without PCLMULQDQ, SSSE3, AES-NI, AVX, and without leaf 7 (AVX2, BMI, SHA-NI).
export OPENSSL_ia32cap='~0x1a00020200000000:0'

# count NAME MODE: 'JOB INSTRUCTIONS' for each profile that the mode makes, less what measuring itself costs.
count() {
    local profiles=$room/profiles
    rm -rf "$profiles"
    mkdir -p "$profiles"
    valgrind -q --tool=callgrind --collect-atstart=no "--callgrind-out-file=$profiles/p" "$room/measure.$1" "$2" ||
        stop "$1: callgrind failed"
    awk '/^desc: Trigger: Client Request: / { job = $NF } /^(totals|summary): / { n[job] = $2 }
        END { for (j in n) if (j != "none") print j, n[j] - n["none"] }' "$profiles"/p.* | sort -V
}

# check_answers FILE FIRST: stops unless the answers of a library, as measure shows them, are FIRST's byte for byte, no job is refused,
# and the attribute that is written has the wrapped key of RFC 3394's example 4.1.
check_answers() {
    cmp "$1" "$2" >&2 || stop "${1##*.} DISAGREES with ${2##*.}"
    awk '$2 $4 $9 $15 $18 !~ /^0+$/ { print $1 " is refused"; exit 1 }' "$1" >&2 || stop "${1##*.}: a job is refused"
    grep -q '^write-16 .*1fa68b0a8112b447aef34bd8fb5a7b829d3e862371d2cfe5' "$1" || stop "${1##*.}: not RFC 3394's example"
}

on() { # JOBS JOB-OR-KIND: whether a column that is measured on JOBS is measured on this one
    case $1:$2 in
    all:* | area:area* | area:bundle* | area:comparison | area:slot* | attribute:write* | attribute:read* | attribute:attribute | attribute:all) true ;;
    -area:area* | -area:bundle* | -area:comparison | -area:slot* | area:* | attribute:*) false ;;
    -area:*) true ;;
    esac
}

# sizes COLUMN JOBS PREFIX PARTS: code and constants, and zeroed data, of a static program of the calls of each kind, without the C library.
gcc=gcc
size=size
sizes() {
    local column=$1 jobs=$2 prefix=$3 kind calls
    shift 3
    for kind in hash usage handover attribute area bundle comparison slots all; do
        on "$jobs" $kind || continue
        case $kind in
        hash) calls=sha256 ;;
        usage) calls=usage_key ;;
        handover) calls='r0_key r1_key' ;;
        attribute) calls='write_key_attribute read_key_attribute' ;;
        area) calls=read_area ;;
        bundle) calls='write_bundle read_bundle' ;;
        comparison) calls=compare_bundles ;;
        slots) calls='put_slot drop_slot live_slots' ;;
        all) calls='sha256 usage_key r0_key r1_key write_key_attribute read_key_attribute read_area write_bundle read_bundle compare_bundles put_slot drop_slot live_slots' ;;
        esac
        # shellcheck disable=SC2046,SC2086 # words
        $gcc -static -nostdlib -Wl,--gc-sections,--unresolved-symbols=ignore-all "-Wl,-e,$prefix${calls##* }" \
            $(printf " -Wl,-u,$prefix%s" $calls) "$@" -o "$room/size"
        $size -A "$room/size" | awk -v column="$column" -v kind=$kind '
            $1 ~ /^\.(text|rodata|data|init_array)/ { code += $2 }
            $1 ~ /^\.t?bss/ { zeroed += $2 }
            END { print "size", column, kind, code, zeroed + 0 }'
    done
}
