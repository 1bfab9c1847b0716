#!/bin/bash
# Appends to the journal of a half on a node's disk in memory: processor time and memory by the number of records.
# The records are of 20 bytes (payloads of 15), so a half takes 91,750 of them.
cd "$(dirname "$0")/../crates/disk_tries" || exit 1
rt run -- 0 || exit 1
for count in 0 11468 22937 45875 68812 91750; do
    /usr/bin/time -f "%U s user, %S s system, %M KB" out/disk_tries "$count"
done
