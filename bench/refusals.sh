#!/usr/bin/env bash
# Compares the mistakes that are found in components with those that a file says. Usage: bench/refusals.sh FILE
# The file has cases: a line `=== WHAT: refused NAME: KIND at N`, and then the files of the components, each behind a line `--- f0`, `--- f1`, ..;
# N is counted in the file of NAME. A case passes where the word `check` of text_calls tells that line of NAME among the first mistakes of
# the components. The program is built first, where there is none. Without the file, the program and the toolchain nothing is compared.
set -eu
cases=${1:-}
[ -n "$cases" ] && [ -r "$cases" ] || { echo "skipped: no such file"; exit 0; }
cases=$(realpath "$cases")
cd "$(dirname "$0")/.."
program=$PWD/crates/text_calls/out/text_calls
if ! [ -x "$program" ]; then
    command -v rt >/dev/null || { echo "skipped: no program and no toolchain"; exit 0; }
    (cd crates/text_calls && rt run </dev/null >/dev/null 2>&1) || true
    [ -x "$program" ] || { echo "skipped: the program is not proved or not built"; exit 0; }
fi
room=$(mktemp -d)
trap 'rm -rf "$room"' EXIT

# One line a case for the program, in `texts`, and the line that is wanted, its place counted from the first file on, in `wanted`.
LC_ALL=C awk -v texts="$room/texts" -v wanted="$room/wanted" '
    function put() {
        if (head == "") return
        print "check | " text >texts
        line = head
        sub(/^=== [A-Za-z]+: /, "", line)
        if (match(line, / at [0-9]+$/)) {
            line = substr(line, 1, RSTART - 1) " at " (substr(line, RSTART + 4) + begins[name])
        }
        print line >wanted
    }
    /^=== / {
        put()
        head = $0; text = ""; bytes = 0; fresh = 0; name = $4
        sub(/:$/, "", name)
        split("", begins)
        next
    }
    /^--- f[0-9]+$/ { starts = bytes; fresh = 1; next }
    {
        if (fresh && match($0, /(Facility|Concept|Realization|Enhancement) +[A-Za-z0-9_]+/)) {
            split(substr($0, RSTART, RLENGTH), words, / +/)
            if (!(words[2] in begins)) begins[words[2]] = starts
            fresh = 0
        }
        bytes += length($0) + 1
        text = text $0 "\\n"
    }
    END { put() }
' "$cases"
"$program" <"$room/texts" >"$room/said"
paste -d '\n' "$room/wanted" "$room/said" | awk '
    NR % 2 { line = $0; next }
    {
        cases++
        answer = $0
        while (i = index(answer, " = ")) answer = substr(answer, i + 3)
        if (index(" " answer " ", " " line " ")) same++
        else print "wanted " line ", said " answer
    }
    END { printf "%d cases, %d as the file says\n", cases, same; exit cases != same }
'
