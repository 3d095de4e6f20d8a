#!/bin/sh
# Stops unless an archive has the proved calls that labels.o makes, for its processor: lib/proved.sh PROVED LABELS.O
set -eu
export LC_ALL=C
proved=$1
object=$2

stop() {
    echo "PROVED=$proved $1. It has to be the file liblabels_c.a that \`rt lib\` makes in crates/labels_c." >&2
    exit 1
}

machine_of() { readelf -h "$1" 2> /dev/null | sed -n 's/^ *Machine: *//p' | sort -u; }

[ -r "$proved" ] || stop 'cannot be read'
[ "$(head -c 7 "$proved")" = '!<arch>' ] || stop 'is not an archive'
wanted=$(machine_of "$object")
found=$(machine_of "$proved")
[ "$found" = "$wanted" ] || stop "is for another processor (${found:-none}) than the C compiler ($wanted)"
has=$(nm -g --defined-only "$proved" 2> /dev/null | awk '{ print $NF }' | sort -u)
for call in $(nm -u "$object" | awk '$NF ~ /^labels_proved_/ { print $NF }'); do
    echo "$has" | grep -qx "$call" || stop "lacks the call $call, as an installed liblabels.a does"
done
