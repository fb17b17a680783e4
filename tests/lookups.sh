#!/usr/bin/env bash
# Looks at the compiled code of the functions that look tables up, AES by secret bytes among them: each look-up has to be a load. A contract
# does not say so, since it is the compiler that makes a load of it. So the code must have no jump to a computed place, no call, and
# no more conditional jumps than its loops and choices need. Last line: 'N passed, M failed'.
set -u
cd "$(dirname "$0")/.." && . tools/common.sh || exit 1

# loads_only FUNCTION JUMPS: the function is there, has at most so many conditional jumps, no call and no jump to a computed place
loads_only() {
    objdump -d --no-show-raw-insn --disassemble="$1" "$archive" | awk -v most="$2" '
        $1 !~ /^[0-9a-f]+:$/ { next }
        { all++ }
        $2 ~ /^call/ || ($2 ~ /^jmp/ && $3 ~ /^\*/) { computed++ }
        $2 ~ /^j/ && $2 !~ /^jmp/ { jumps++ }
        END {
            if (all && jumps <= most && !computed) exit
            printf "%d instructions, %d conditional jumps, %d calls and computed jumps\n", all, jumps, computed
            exit 1
        }'
}

install_for objdump binutils
check 'the archive' make_archive
check keywrap_aes::passes::passes loads_only keywrap_aes::passes::passes 16
check sha256::Sha256Hash832::compress_blocks loads_only sha256::Sha256Hash832::compress_blocks 8
tell_counts
