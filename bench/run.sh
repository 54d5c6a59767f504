#!/usr/bin/env bash
# Prints milliseconds: 10,000 runs of a program that doubles a number, each with a limit of instructions, and one run of a program of 60
# statements with 8 nested choices. The program is built first.
set -eu
cd "$(dirname "$0")/.."
./resolve run examples/One_Two.fa </dev/null >/dev/null
program=$PWD/crates/resolve/out/resolve
room=$(mktemp -d)
trap 'rm -rf "$room"' EXIT
cp examples/Double.fa "$room/"
{
    echo "Facility Nested;"
    echo "  Operation Main(updates In: In_Stream; updates Out: Out_Stream);"
    echo "    ensures true;"
    echo "  Procedure"
    echo "    Var Number, Other: Integer;"
    for k in $(seq 1 8); do echo "If $k <= Remaining(In) then Read(Number, In);"; done
    for k in $(seq 1 8); do echo "end;"; done
    for k in $(seq 1 22); do echo "Other := $k; Write(Other, Out);"; done
    echo "  end Main;"
    echo "end Nested;"
} >"$room/Nested.fa"
cd "$room"
milliseconds() { echo $((($(date +%s%N) - $1) / 1000000)); }
start=$(date +%s%N)
for k in $(seq 1 10000); do echo 21 | "$program" run --steps 1000 Double.fa >/dev/null; done
echo "10,000 runs of Double: $(milliseconds "$start") ms"
start=$(date +%s%N)
seq 1 8 | "$program" run Nested.fa >/dev/null
echo "one run of 60 statements with 8 nested choices: $(milliseconds "$start") ms"
