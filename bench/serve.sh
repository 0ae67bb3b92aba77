#!/bin/sh
# Ranges of 64 KiB of an object of 64 MiB, one request after the other over one connection, from vol_tool and from the
# plain program beside this script, with the file in the page cache: three tries in turn, SECONDS each (5), and the best
# of each. Each range is first asked for once, and compared with the file. Wanted: a ratio of at least 0.8, ours to plain.
#
#     bench/serve.sh [PROGRAM [SECONDS]]
#
# PROGRAM is the built vol_tool if it is left out. It wants rustc, and 80 MiB free where TMPDIR says.

root=$(cd "$(dirname "$0")/.." && pwd) || exit
set -- plain_serve "$@"
. "$root/bench/against.sh"
seconds=${3:-5}

rustc --edition 2021 -O -o ask_ranges "$root/bench/ask_ranges.rs" || exit
mkdir -p d/s && head -c 67108864 /dev/urandom >d/s/x && cat d/s/x >/dev/null || exit

# SERVER: how many requests it answers a second.
rate_of() {
    : >port
    "$1" serve d --port=0 --connections=1 >>port &
    server=$!
    until grep -q '^listening ' port; do
        kill -0 $server 2>/dev/null || exit 1
        sleep 0.1
    done
    ./ask_ranges "$(cut -d ' ' -f 2 port)" /s/x d/s/x "$seconds" && wait $server
}

for _ in 1 2 3; do
    ours=$(rate_of "$program") && plain=$(rate_of ./plain_serve) || exit
    echo "$ours $plain"
done | awk '
    { ours = $1 > ours ? $1 : ours; plain = $2 > plain ? $2 : plain }
    END {
        if (NR < 3) exit 1
        printf "ours   %6d requests/s  %5.0f MiB/s\n", ours, ours / 16
        printf "plain  %6d requests/s  %5.0f MiB/s\n", plain, plain / 16
        printf "ratio  %.2f  (ours to plain, best of 3)\n", ours / plain
    }'
