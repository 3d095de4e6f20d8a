#!/bin/sh
# Whether a package depends on a C library that has what its file calls: debian/needs-libc.sh PACKAGE FILE
set -eu
needed=$(grep -ao 'GLIBC_[0-9][0-9.]*' "$2" | sed 's/^GLIBC_//' | sort -Vu | tail -n 1)
named=$(dpkg-query -W -f '${Depends}' "$1" | sed -nE 's/.*libc6 \(>= ([^)]*)\).*/\1/p')
echo "$1 depends on libc6 (>= $named), and $2 needs $needed"
[ -n "$needed" ] && dpkg --compare-versions "$named" ge "$needed"
