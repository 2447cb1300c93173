#!/usr/bin/env bash
# Links the static libraries into C programs, which call each function by flood.h and by display.h, and into a Rust program, which compares every
# call with document 01 as tests/outside/reference.rs has it, and a run with boards with document 02 as tests/outside/watching.rs does. Words go
# to the Rust program: --long for a long run, --seed N, --rounds N, --endless. Rust programs of their own hold what the programs print to document
# 02: of hatch logs as tests/outside/evening.rs has it, of lists of sheets and the heights of single ones as tests/outside/winter.rs does, and of
# boards as tests/outside/watching.rs does. Others hold the survey office's sets in Python to tests/outside/survey.rs, and what `repair` prints of
# beds that were not seen to tests/outside/holes.rs. A board lies in memory as C and Rust both say.
set -u
cd "$(dirname "$0")/.." || exit 1
top=$PWD
. tests/outside/build.sh

# ended CHECKS SKIPPED FAILED: says the counts and ends
ended() {
    echo "outside: $1 checks, $2 skipped, $3 failed"
    [ "$3" -eq 0 ]
    exit
}

# number_of FILE BEFORE AFTER: the number that stands between two texts in a program's output
number_of() {
    sed -n "s/.*$2\([0-9]*\)$3.*/\1/p" "$1" | tail -n 1
}

if ! tools; then
    echo "outside: skipped: the library called from C and Rust: $why"
    ended 0 1 0
fi

damaged=$built/damaged
evenings=$built/evenings
winters=$built/winters
heights=$built/heights
levels=$built/levels
surveys=$built/surveys
unseen=$built/unseen
rm -rf "$damaged" "$evenings" "$winters" "$heights" "$levels" "$surveys" "$unseen"
mkdir -p "$damaged" "$evenings" "$winters" "$heights" "$levels" "$surveys" "$unseen"

# cases: what the tests work in Python, written for the Rust programs
cases() {
    bin/test damaged --write "$damaged" && bin/test hatchlog --write "$evenings" && bin/test drowned --write "$winters" &&
        bin/test highest --write "$heights" && bin/test boards --write "$levels" && bin/test sets --write "$surveys" &&
        bin/test repair --write "$unseen"
}

# programs: those in C, and those in Rust
programs() {
    local name
    for name in header display; do
        build_c "$name" || return 1
    done
    for name in compare logs lists boards sets repairs layout; do
        build "$name" || return 1
    done
}

# told NAME PROGRAM WORDS..: runs a built program, keeps what it prints in NAME.log, and counts it where it fails
told() {
    "${run_by[@]}" "$top/$built/$2" "${@:3}" | tee "$top/$built/$1.log"
    [ "${PIPESTATUS[0]}" -eq 0 ] || failed=$((failed + 1))
}

if ! { cases && archive && wrapper && programs; }; then
    ended 0 0 1
fi
failed=0
told header header
told display display
told compare compare "$@" samples/*.sheet "$damaged"/*.sheet
told logs logs samples/*.log "$evenings"/*.log
told heights lists samples/winter/*.list "$heights"/*.sheet
told levels boards samples/winter/*.boards "$levels"/*.boards
told moves sets "$surveys"/*.note "$surveys"/*.sheet
told holes repairs "$unseen"/*.sheet
told c-layout display layout
told rust-layout layout
cmp "$built/c-layout.log" "$built/rust-layout.log" || failed=$((failed + 1))
# a list's sheets are found from the folder that it is read in
cd "$winters" || failed=$((failed + 1))
told winters lists ./*.list
cd "$top" || failed=$((failed + 1))

functions=$(number_of "$built/header.log" "each of the " " functions")
places=$(grep -c . "$built/c-layout.log")
calls=$(number_of "$built/compare.log" "rounds, " " calls compared, no difference")
logs=$(number_of "$built/logs.log" "outside: " " hatch logs, no difference")
tops=$(number_of "$built/heights.log" "outside: " " lists and heights, no difference")
lists=$(number_of "$built/winters.log" "outside: " " lists and heights, no difference")
boards=$(number_of "$built/levels.log" "outside: " " boards' texts, no difference")
moves=$(number_of "$built/moves.log" "outside: " " sets and sheets moved, no difference")
holes=$(number_of "$built/holes.log" "outside: " " sheets repaired, no difference")
made=0
for count in "$functions" "$places" "$calls" "$logs" "$tops" "$lists" "$boards" "$moves" "$holes"; do
    [ "${count:-0}" -gt 0 ] || failed=$((failed + 1))
    made=$((made + ${count:-0}))
done
ended "$made" 0 "$failed"
