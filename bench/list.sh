#!/bin/bash
# Adds to the master's list on a disk in memory: instructions of one, by the number of campaigns before it, by callgrind. A
# campaign has eight events, each with two writes and two syncs; what the last 32 of so many campaigns take is parted among
# their events, since the disk in memory takes a page for its bytes only now and then.
cd "$(dirname "$0")/../crates/log_tries" || exit 1
rt run -- 1 || exit 1
instructions() {
    valgrind --tool=callgrind --callgrind-out-file=/dev/null out/log_tries "$1" 2>&1 | sed -n 's/.*Collected : //p'
}
for count in 64 512 4096; do
    with=$(instructions "$count")
    without=$(instructions $((count - 32)))
    echo "$count campaigns: $(((with - without) / 256)) instructions an add"
done
