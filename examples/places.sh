#!/bin/sh
# Writes a table of the places of a rack, of aisles, bays and levels, each with a check letter: the sum of its
# characters, each times its place, modulo 23. Two neighbouring digits that are exchanged give another letter.
for aisle in A B C; do
    for bay in $(seq -w 1 12); do
        for level in 1 2 3 4; do echo "$aisle-$bay-$level"; done
    done
done | awk 'BEGIN { print "Place,Check"; signs = "0123456789ABCDEFGHIJKLMNOPQRSTUVWXYZ-" }
    {
        sum = 0
        for (i = 1; i <= length($0); i++) sum += i * index(signs, substr($0, i, 1))
        print $0 "," substr("ABCDEFGHJKLMNPQRSTUVWXYZ", sum % 23 + 1, 1)
    }'
