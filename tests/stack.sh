#!/usr/bin/env bash
# Makes each exported call on threads with less and less stack, prints how much it needs, and fails where that is more than its header says.
set -u
cd "$(dirname "$0")/.." || exit 1
. tests/outside/build.sh

# ended CHECKS SKIPPED FAILED: the line that the gate reads
ended() {
    echo "stack: $1 checks, $2 skipped, $3 failed"
    [ "$3" -eq 0 ]
    exit
}

if ! tools; then
    echo "stack: skipped: the stack of the exported calls: $why"
    ended 0 1 0
fi
if ! { archive && wrapper && build stack; }; then
    ended 0 0 1
fi
ulimit -c 0

# a thread has this much at the least; sizes go by pages
least=16
page=4
checks=0 failed=0

# suffices CALL KIB
suffices() {
    "${run_by[@]}" "$built/stack" "$1" "$2"
} >/dev/null 2>&1

while read -r call said; do
    checks=$((checks + 1))
    if ! suffices "$call" "$said"; then
        echo "stack: $call does not end well with the $said KiB that its header says: $("${run_by[@]}" "$built/stack" "$call" "$said" 2>&1)"
        failed=$((failed + 1))
        continue
    fi
    too_few=$((least / page - 1))
    enough=$((said / page))
    while [ $((enough - too_few)) -gt 1 ]; do
        middle=$(((too_few + enough) / 2))
        if suffices "$call" $((page * middle)); then enough=$middle; else too_few=$middle; fi
    done
    echo "stack: $call needs at most $((page * enough)) KiB, and its header says $said"
done < <("${run_by[@]}" "$built/stack")
[ "$checks" -gt 0 ] || failed=1
ended "$checks" 0 "$failed"
