#!/bin/sh
# Rules of the house that no proof keeps: a number of four or more digits stands in a table of places and lengths only (specs/Places, runs/specs/Regions, constants of the code), or in
# an example; the length of a record is written by its name outside the record's own module; no crate's specs or proofs import another crate's proofs, but for its theorems
# (proofs/Theorems: those that an edited definition breaks, which therefore can't stand in specs/). Prints each line that breaks one, and fails if there is any.
cd "$(dirname "$0")/.." || exit 2
files=$(find crates -name out -prune -o \( -name '*.rt' -o -name '*.antt' \) -print | grep -v Examples | sort)
crates=$(sed 's/#.*//; s/[ :].*//' crates.txt | tr '\n' ' ')
[ -n "$files" ] && [ -n "$crates" ] || exit 2
printf '%s\n' "$files" | xargs awk -v crates=" $crates" '
    {
        line = $0
        if (FILENAME ~ /\.antt$/) sub(/(^|[ \t])--( .*)?$/, "", line); else sub(/\/\/.*/, "", line)
    }
    FILENAME !~ /specs\/(Places|Regions)\.antt$/ && line !~ /const [A-Z_]+: (usize|u32) = / && line ~ /(^|[^A-Za-z0-9_.,])[0-9][0-9][0-9][0-9]/ {
        print "a number outside the tables: " FILENAME ":" FNR
        broken = 1
    }
    FILENAME !~ /files\/specs\/Record\.antt$/ && line ~ /(^|[^A-Za-z0-9_.])6 \*/ {
        print "a length of a record: " FILENAME ":" FNR
        broken = 1
    }
    line ~ /^(pub )?use Rattle\.[a-z]+\.proofs\./ && line !~ /\.proofs\.Theorems\./ {
        split(line, path, ".")
        split(FILENAME, folder, "/")
        if (path[2] != folder[2] && index(crates, " " path[2] " ")) {
            print "proofs of another crate: " FILENAME ":" FNR
            broken = 1
        }
    }
    END { exit broken }
'
