#!/bin/bash
# A report of 100,000 lines, printed from its lists: microseconds, bytes, and megabytes a second; then what its printing takes of
# memory beside the lists, against its bytes. Five times. Ends with 1 where the best is below 50 MB/s, or one takes more memory than
# twice its bytes.
cd "$(dirname "$0")/../crates/report_bench" || exit 1
[ -x out/report_bench ] || rt run < /dev/null > /dev/null || exit 1
peak() { /usr/bin/time -f %M "$@" 2>&1 >/dev/null; }
best=0
most=0
for _ in 1 2 3 4 5; do
    read -r took bytes < <(out/report_bench 100000 | tr -dc '0-9 ')
    lists=$(peak out/report_bench 100000 lists)
    whole=$(peak out/report_bench 100000)
    rate=$((bytes / took))
    share=$((100 * (whole - lists) * 1024 / bytes))
    echo "$took us, $bytes bytes, $rate MB/s; memory $(((whole - lists) * 1024)) bytes, $share % of them"
    if ((rate > best)); then best=$rate; fi
    if ((share > most)); then most=$share; fi
done
if ((best < 50 || most > 200)); then
    echo "bench/report.sh: the best rate is $best MB/s, the most memory $most %" >&2
    exit 1
fi
