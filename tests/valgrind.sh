#!/bin/sh
# Runs a round of the fuzzing and the command with threads under valgrind; any error ends it with status 1.
# Needs valgrind, and the library: make.
set -eu
cd "$(dirname "$0")"
cargo build --offline --bin fuzz
gcc -std=c11 -D_POSIX_C_SOURCE=200809L -g -O1 -pthread -I../include ../mzk/*.c ../target/staticlib/libmazhoketh.a \
    -o target/mzk
net=../data/roof_45.mtx
seq 1 135 > target/movements
printf '0\n0\n0\n' > target/picks
printf '0\n2\n4\n' > target/starts
printf '0\n1\n0\n1\n' > target/columns
printf '2\n-1\n-1\n2\n' > target/values
target/mzk plan $net -w 5 -q -o target/plan
valgrind --quiet --error-exitcode=1 target/debug/fuzz 1 0.01
for tool in memcheck helgrind; do
    for more in "" "--crews target/movements" "--rounds"; do
        valgrind --quiet --error-exitcode=1 --tool=$tool target/mzk run $net target/plan target/movements $more \
            > target/forces
    done
done
for command in "plan $net -w 5" "list target/plan -m $net" "draw target/plan -m $net" "force $net target/movements" \
    "prepare $net target/plan target/movements -o target/job" "pick target/job target/run target/picks --fresh" \
    "pick target/job target/run target/picks -r -n" "rows target/starts target/columns target/values" \
    "barrier target/unit 0=3 2=1 2=2 line releases --fresh" "barrier target/unit 4=1 line" \
    "survey $net target/movements -s 3" "control target/movements" "diff target/movements target/movements"; do
    valgrind --quiet --error-exitcode=1 --leak-check=full target/mzk $command > target/printed
done
echo "no errors"
