#!/bin/sh
# The archive for C asks nothing of its surroundings but `memset` (docs/DECISIONS.md): a box that links it may have no C library. Prints each
# other name that it needs from outside, and fails if there is one. The argument is the archive.
names=$(nm -u "$1") || exit 2
needed=$(printf '%s\n' "$names" | awk '$1 == "U" { print $2 }' | sort -u)
[ -n "$needed" ] || exit 2
others=$(printf '%s\n' "$needed" | grep -v '^memset$')
[ -z "$others" ] || { printf 'needed from outside: %s\n' $others; exit 1; }
