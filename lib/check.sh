#!/bin/sh
# What must hold of liblabels in the folder DIR: it exports the names of exports.txt alone; nothing is undefined but
# three calls of the C library, and the guard of the stack where the flags ask for it; no relocation is in the code; no
# stack can be executed. On amd64 it and each PROGRAM are for every processor: the assembler knows what came later.
# usage: lib/check.sh DIR [PROGRAM..]
set -eu
export LC_ALL=C
folder=$1
shift
wanted=$(sort "$(dirname "$0")/exports.txt")
shared=$(echo "$folder"/liblabels.so.*.*.*)

fail() {
    echo "lib/check.sh: $1" >&2
    exit 1
}

names() { nm "$@" | awk 'NF > 1 && ($(NF - 1) == "T" || $(NF - 1) == "U") { sub(/@.*/, "", $NF); print $NF }' | sort; }

for file in "$shared" "$folder/liblabels.a" "$@"; do
    [ -s "$file" ] || fail "there is no $file"
done
[ "$(names -D --defined-only "$shared")" = "$wanted" ] || fail "$shared exports other names than exports.txt"
[ "$(names -g --defined-only "$folder/liblabels.a")" = "$wanted" ] || fail "liblabels.a has other names than exports.txt"
[ "$(names -D --undefined-only "$shared" | sed "/^__stack_chk_/d" | xargs)" = 'memcpy memmove memset' ] ||
    fail "$shared needs other names than memcpy, memmove and memset"
if readelf -d "$shared" | grep -q TEXTREL; then fail "$shared has a relocation in the code"; fi
readelf -lW "$shared" | grep -q 'GNU_STACK.* RW ' || fail "$shared has a stack that can be executed"
readelf -h "$shared" | grep -q X86-64 || exit 0

# later FILE: the first instruction that came later. The places of jumps are left out, and padding; endbr64 is padding
# to an older processor. It takes tzcnt for bsf, which finds the same if a bit is set, as there is in Rattle's code.
later() {
    listed=$(objdump -d --no-show-raw-insn "$1" | sed -nE 's/^ *[0-9a-f]+:\t//p' |
        sed -E "s/ *[#<].*//; /^(bnd |notrack )?(j|call|loop)/d; /nop|endbr64/d; s/^tzcnt/bsf/" | sort -u)
    echo "$listed" | grep -q '^ret' || fail "$1 has no instructions that objdump lists"
    echo "$listed" | as -march=generic64 -o /dev/null - 2>&1 | grep -m 1 -v 'messages:$' || :
}

found=$(later "$shared")
for program; do
    found=$found$(later "$program")
done
[ -z "$found" ] || fail "an instruction that is not of every amd64 processor: $found"
