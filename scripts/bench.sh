#!/bin/sh
# Times library calls on large texts: milliseconds for each call, and how many parts it gave.
set -eu
top=$(dirname "$(readlink -f "$0")")/..
program="$top/crates/vale_bench/out/vale_bench"
if [ ! -x "$program" ]; then
    (cd "$top/crates/vale_bench" && rt run -- parse 1 "$top/examples/inc2/a.vale" >&2)
fi
folder=$(mktemp -d)
trap 'rm -rf "$folder"' EXIT

# A thousand procedures, and a program of a hundred thousand instructions.
i=0
while [ $i -lt 1000 ]; do
    sed "s/inc2/inc$i/g" "$top/examples/inc2/a.vale"
    i=$((i + 1))
done >"$folder/a.vale"
{
    printf '.text\n.globl f\nf:\n'
    yes '	addq 16(%rdi,%r8,2), %rax' | head -n 100000
    printf '\tret\n'
} >"$folder/a.s"

bench() {
    begun=$(date +%s%N)
    said=$("$program" "$1" "$2" "$3")
    ended=$(date +%s%N)
    printf '%6d ms  %s\n' $(((ended - begun) / 1000000 / $2)) "$said"
}

bench scan 10 "$folder/a.vale"
bench parse 10 "$folder/a.vale"
bench read 10 "$folder/a.s"
bench print 10 "$folder/a.s"

# Balanced sums, the second of twice as many terms: about twice the time.
for terms in 200000 400000; do
    bench size-sum 20 $terms
    bench print-sum 20 $terms
    bench value-sum 20 $terms
done

# A sequent of 65,536 nodes, in which each name is new.
bench fit-sequent 1 65536
bench size-sequent 100 65536
bench print-sequent 100 65536
bench value-sequent 1 65536

# A million nodes of terms made in a store, and found there.
bench make-nodes 10 1000000
bench find-nodes 10 1000000
