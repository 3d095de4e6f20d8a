#!/usr/bin/env bash
# Calls the library with what libFuzzer finds, under ASan and UBSan, for so many seconds: fuzz.sh SECONDS
# It needs clang, and the proved part of the library ($PROVED, or that of `make library`). It ends with a status that is
# not 0 if a call reads or writes where it must not, takes 10 seconds, or reads other data than was drawn.
set -euo pipefail
seconds=${1:?seconds}
lib=$(realpath "$(dirname "$0")/..")
proved=${PROVED:-$lib/../crates/labels_c/out/liblabels_c.a}
folder=$(mktemp --directory)
trap 'rm -rf "$folder"' EXIT
clang -std=c11 -O1 -g -fsanitize=fuzzer,address,undefined -fno-sanitize-recover=all -I "$lib" "$lib/tests/fuzz.c" \
    "$lib/labels.c" "$proved" -o "$folder/fuzz"
mkdir "$folder/cases"
# Cases to begin with: the data of a symbol, behind 24 bytes that choose the call, its options and the symbology.
number=0
for data in 4006381333931 7351353 03600029145 'LOT-000123/Shelf 7b' HELLO; do
    number=$((number + 1))
    printf "\\3\\0\\1\\62\\1\\1\\10\\0\\0\\$number\\377\\0\\0\\0\\0\\0\\0\\1\\0\\0\\0\\5\\0\\0%s" "$data" > "$folder/cases/$number"
done
"$folder/fuzz" -max_total_time="$seconds" -timeout=10 -max_len=4096 -print_final_stats=1 -artifact_prefix=./fuzz- \
    "$folder/cases"
