#!/bin/sh
# Runs the built program `checker` on every stored list of arguments of tests/checker, in its folder of files, and holds what it prints to the stored output; where stored
# bytes stand beside that, the result goes to a file by -o and is held to them. The argument is the program.
program=$(cd "$(dirname "$1")" && pwd)/$(basename "$1")
cd "$(dirname "$0")/checker/files" || exit 1
result=$(mktemp) || exit 1
trap 'rm -f "$result"' EXIT
failed=0
count=0
differs() {
    echo "differs: $1"
    failed=1
}
for list in ../*.arguments; do
    name=${list%.arguments}
    count=$((count + 1))
    set --
    while IFS= read -r word; do set -- "$@" "$word"; done <"$list"
    if [ -f "$name.raw" ]; then
        echo stale >"$result"
        "$program" "$@" -o "$result" | cmp -s - "$name.out" || differs "$name.out"
        cmp -s "$result" "$name.raw" || differs "$name.raw"
    else
        "$program" "$@" | cmp -s - "$name.out" || differs "$name.out"
    fi
done
echo "checker: $count lists of arguments"
[ "$count" -gt 0 ] && [ "$failed" -eq 0 ]
