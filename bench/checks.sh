#!/usr/bin/env bash
# Prints the milliseconds in which the mistakes of names, arguments, sorts, types and modes are looked for in a chain of 64 concepts with their
# realizations, each of which stands on the one before, and a module at the end: what the word `check` of text_calls takes over the word
# `table`, which reads the same text and makes the same table. The best of forty runs of each. The program is built first, where there is
# none; without it and without the toolchain nothing is measured.
set -eu
cd "$(dirname "$0")/.."
program=$PWD/crates/text_calls/out/text_calls
if ! [ -x "$program" ]; then
    command -v rt >/dev/null || { echo "skipped: no program and no toolchain"; exit 0; }
    (cd crates/text_calls && rt run </dev/null >/dev/null 2>&1) || true
    [ -x "$program" ] || { echo "skipped: the program is not proved or not built"; exit 0; }
fi
room=$(mktemp -d)
trap 'rm -rf "$room"' EXIT

# The components of a chain of so many concepts, in one line, with `\n` between them.
chain() {
    awk -v most="$1" 'BEGIN {
        for (k = 1; k <= most; k++) {
            below = k - 1
            printf "Concept Link_%d; Operation Step(updates I: Integer); requires -1000000 <= I and I <= 1000000; ensures I = #I + %d; end Link_%d;\\n", k, k, k
            printf "Realization Real_%d for Link_%d; ", k, k
            if (below) printf "Facility F is Link_%d realized by Real_%d; ", below, below
            printf "Procedure Step(updates I: Integer); %sI := I + 1; end Step; end Real_%d;\\n", (below ? "F.Step(I); " : ""), k
        }
        printf "Facility Gen_Main; Facility F is Link_%d realized by Real_%d; ", most, most
        printf "Operation Main(updates In: In_Stream; updates Out: Out_Stream); ensures Out = <%d>; ", most
        print "Procedure Var I: Integer; F.Step(I); Write(I, Out); end Main; end Gen_Main;"
    }'
}

# The best time of a word over the chain, in microseconds.
best_of() {
    best=
    for turn in $(seq 40); do
        start=$(date +%s%N)
        "$program" <"$room/$1" >"$room/said"
        took=$((($(date +%s%N) - start) / 1000))
        if [ -z "$best" ] || [ "$took" -lt "$best" ]; then best=$took; fi
    done
    echo "$best"
}

milliseconds() { echo "$(($1 / 1000)).$(printf %03d $(($1 % 1000)))"; }

concepts=64
echo "table | $(chain "$concepts")" >"$room/table"
echo "check | $(chain "$concepts")" >"$room/check"
reading=$(best_of table)
whole=$(best_of check)
grep -q ' = fine$' "$room/said" || { sed 's/.* = //' "$room/said"; exit 1; }
echo "$((2 * concepts + 1)) components, $(chain "$concepts" | wc -c) bytes: checked in $(milliseconds $((whole - reading))) ms, read in $(milliseconds "$reading") ms"
