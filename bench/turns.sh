#!/bin/bash
# Turns on one gate against the same work under a std Mutex, in one run: microseconds, and the ratio.
# Needs rustc, and crates/gate_bench/out/gate_bench, which `rt run` in crates/gate_bench builds.
cd "$(dirname "$0")/.." || exit 1
rustc -O -o /tmp/turns bench/turns.rs || exit 1
for shape in "1 1600000" "8 200000"; do
    for _ in 1 2 3 4 5; do
        gate=$(crates/gate_bench/out/gate_bench $shape | sed 's/.* in \([0-9]*\) us/\1/')
        mutex=$(/tmp/turns $shape | sed 's/.* in \([0-9]*\) us/\1/')
        echo "threads and turns $shape: gate $gate us, mutex $mutex us, ratio $((100 * gate / mutex)) %"
    done
done
