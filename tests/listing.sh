#!/bin/sh
# Runs the built program `listing` on every stored input of tests/listing and holds what it prints to the stored output. The argument is the program.
program=$1
directory=$(dirname "$0")/listing
failed=0
count=0
for input in "$directory"/*.in; do
    count=$((count + 1))
    "$program" <"$input" | cmp -s - "${input%.in}.out" || {
        echo "differs: $input"
        failed=1
    }
done
echo "listing: $count inputs"
[ "$count" -gt 0 ] && [ "$failed" -eq 0 ]
