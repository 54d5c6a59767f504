#!/usr/bin/env bash
# Prints the milliseconds in which a file of 10 kB, 100 kB and 1 MB of components is read and refused as not built, the best of five runs,
# and the greatest memory of a run in kB, where GNU time is there. The program is built first.
set -eu
cd "$(dirname "$0")/.."
./resolve run examples/One_Two.fa </dev/null >/dev/null
program=$PWD/crates/resolve/out/resolve
room=$(mktemp -d)
trap 'rm -rf "$room"' EXIT
cd "$room"

# So many bytes at most of whole components: concepts and modules in turns.
components() {
    awk -v most="$1" 'BEGIN {
        concept = "Concept Bounded_Queue_%d(type Entry; evaluates Size: Integer);\n  requires 1 <= Size; (* at least one *)\n" \
            "  Type Family Queue is modeled by Str(Entry);\n    exemplar Q;\n    constraint |Q| <= Size;\n    initialization ensures Q = Empty_String;\n" \
            "  Operation Enqueue(alters E: Entry; updates Q: Queue);\n    requires |Q| + 1 <= Size; ensures Q = #Q o <#E>;\n" \
            "  Operation Length(preserves Q: Queue): Integer;\n    ensures Length = (|Q|);\nend Bounded_Queue_%d;\n"
        module = "Facility Counting_%d;\n  Operation Main(updates In: In_Stream; updates Out: Out_Stream);\n    ensures true;\n  Procedure\n    Var I, J: Integer;\n" \
            "    While I < 3 * (J + 2) - 1 and not (I = J)\n      changing I, Out; maintaining 0 <= I and I <= 3; decreasing 3 - I;\n" \
            "    do Write(I, Out); I := I + 1; end;\n    If I <= J then I :=: J; else J := -5 div (I - 2); end;\n  end Main;\nend Counting_%d;\n"
        for (k = 1; ; k++) {
            text = sprintf(k % 2 ? concept : module, k, k)
            if (bytes + length(text) > most) exit
            printf "%s", text
            bytes += length(text)
        }
    }'
}

for size in 10000 100000 1000000; do
    components "$size" >"$size.co"
    best=
    for turn in 1 2 3 4 5; do
        start=$(date +%s%N)
        status=0
        "$program" run "$size.co" </dev/null 2>notes || status=$?
        took=$((($(date +%s%N) - start) / 1000))
        grep -q ': NotBuilt at 0$' notes && [ "$status" = 1 ] || { cat notes; exit 1; }
        if [ -z "$best" ] || [ "$took" -lt "$best" ]; then best=$took; fi
    done
    memory=
    if [ -x /usr/bin/time ]; then memory=", $(/usr/bin/time -f %M "$program" run "$size.co" 2>&1 </dev/null | tail -n 1) kB of memory"; fi
    echo "$(wc -c <"$size.co") bytes: $((best / 1000)).$(printf %03d $((best % 1000))) ms$memory"
done
