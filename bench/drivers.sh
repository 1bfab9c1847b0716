#!/bin/bash
# What a block costs a driver, what a round costs workers, and what they hold: of five runs the least. It judges, and answers 1 where
# - `next` with `on` costs more than BLOCK_FACTOR times as much behind the 4,000th block of a package of 16 MiB as at its first, or
#   the other way round (nanoseconds of the quickest of many drivers);
# - a round over four or eight workers costs more than ROUND_PERCENT of one over a single worker, where each node takes 100 ms for its
#   call, and where one of them takes 300 ms (microseconds): the slowest node bounds it;
# - eight workers that transfer one package of 16 MB hold at their peak MORE_BYTES more than one does: the package is held once.
cd "$(dirname "$0")/../crates/driver_tries" || exit 1
BLOCK_FACTOR=2
ROUND_PERCENT=150
MORE_BYTES=8000000
built=$(rt run 2>&1) || { echo "$built"; exit 1; }
peak=$(mktemp) || exit 1
trap 'rm -f "$peak"' EXIT
cc -O2 -o "$peak" ../../bench/peak.c || exit 1

numbers() { tr -c '0-9\n' ' '; }
# The least of a column over the lines that have so many numbers.
least() { awk -v column="$1" -v fields="$2" 'NF == fields { print $column }' | sort -n | head -1; }
failed=0
judge() {
    if [ "$1" -eq 0 ]; then
        echo "too much: $2"
        failed=1
    fi
}

blocks=$(for _ in 1 2 3 4 5; do out/driver_tries blocks 4000; done | numbers)
first=$(least 1 4 <<<"$blocks")
later=$(least 3 4 <<<"$blocks")
echo "next and on: $first ns at the first blocks, $later ns behind the 4,000th"
judge $((first > 0 && later <= BLOCK_FACTOR * first && first <= BLOCK_FACTOR * later)) "a block's place counts"

# The least microseconds of a round over so many workers whose nodes take as long, and of one with a slow node.
rounds() {
    local took
    took=$(for _ in 1 2 3 4 5; do out/driver_tries round "$1"; done)
    even=$(grep -v 'of which' <<<"$took" | numbers | least 3 3)
    slow=$(grep 'of which' <<<"$took" | numbers | least 3 3)
    echo "a round over $1 workers: $even us, with one slow node $slow us"
}
rounds 1
one_even=$even
one_slow=$slow
for count in 4 8; do
    rounds "$count"
    judge $((one_even > 0 && 100 * even <= ROUND_PERCENT * one_even)) "a round over $count workers"
    judge $((one_slow > 0 && 100 * slow <= ROUND_PERCENT * one_slow)) "a round over $count workers with a slow node"
done

held() { for _ in 1 2 3 4 5; do "$peak" out/driver_tries transfer "$1" 2>&1 >/dev/null; done | awk '{ print $2 }' | sort -n | head -1; }
one=$(held 1)
eight=$(held 8)
echo "a transfer of 16 MB: $one bytes by one worker, $eight by eight"
judge $((one > 0 && eight - one <= MORE_BYTES)) "the package is held more than once"
exit $failed
