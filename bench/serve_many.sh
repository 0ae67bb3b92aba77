#!/bin/sh
# Objects over 8 connections that are kept, from vol_serve with 4 workers, from the plain program beside this script with as
# many threads, and where nginx is installed from one with as many workers: ranges of 64 KiB of an object of 64 MiB, and
# whole objects of 256 KiB, with the files in the page cache. Each connection makes so many requests as RANGES says (20000),
# or a quarter of these for whole objects; TRIES tries in turn (3), of each the best and the median. Wanted: at least 0.9 of
# the plain program, and 0.8 of nginx.
#
#     bench/serve_many.sh [PROGRAM [RANGES [TRIES]]]
#
# PROGRAM is the built vol_serve if it is left out; nginx has sendfile unless SENDFILE says `off`. It wants rustc, Python, and
# 100 MiB free where TMPDIR says.

root=$(cd "$(dirname "$0")/.." && pwd) || exit
ranges=${2:-20000} tries=${3:-3}
set -- plain_serve "${1:-$root/crates/vol_serve/out/vol_serve}"
. "$root/bench/against.sh"

connections=8 workers=4
PATH=$PATH:/usr/sbin
rustc --edition 2021 -O -o ask_many "$root/bench/ask_many.rs" || exit
mkdir -p d/ranges d/wholes && head -c 67108864 /dev/urandom >d/ranges/x || exit
for number in $(seq 64); do
    head -c 262144 /dev/urandom >"d/wholes/$number" || exit
done
cat d/ranges/* d/wholes/* >/dev/null || exit

cat >nginx.conf <<END
daemon off;
$([ "$(id -u)" != 0 ] || echo 'user root;')
worker_processes $workers;
pid nginx.pid;
events { worker_connections 64; }
http {
    access_log off;
    sendfile ${SENDFILE:-on};
    tcp_nopush on;
    keepalive_requests 1000000;
    client_body_temp_path body;
    proxy_temp_path proxy;
    fastcgi_temp_path fastcgi;
    uwsgi_temp_path uwsgi;
    scgi_temp_path scgi;
    server { listen 127.0.0.1:PORT reuseport; root DATASET; }
}
END

# KIND LENGTH REQUESTS: how many requests are answered a second at the port in the file `port`.
ask() {
    ./ask_many "$(cut -d ' ' -f 2 port)" "d/$1" "$2" $connections "$3"
}

# KIND LENGTH REQUESTS WORD..: the same of a server that is begun by these words, and ends behind so many connections.
rate_of() {
    kind=$1 len=$2 requests=$3
    shift 3
    : >port
    "$@" "d/$kind" --port=0 --connections=$connections --workers=$workers >>port &
    server=$!
    until grep -q '^listening ' port; do
        kill -0 $server 2>/dev/null || exit 1
        sleep 0.1
    done
    ask "$kind" "$len" "$requests" && wait $server
}

# KIND LENGTH REQUESTS: the same of nginx, or 0 where it isn't installed.
rate_of_nginx() {
    command -v nginx >/dev/null || { echo 0; return; }
    free=$(python3 -c 'import socket; s = socket.create_server(("127.0.0.1", 0)); print(s.getsockname()[1])') || exit
    echo "listening $free" >port
    sed "s|PORT|$free|; s|DATASET|$work/d/$1|" nginx.conf >nginx_now.conf
    nginx -p "$work" -e nginx.log -c nginx_now.conf &
    server=$!
    until [ -s nginx.pid ]; do
        kill -0 $server 2>/dev/null || exit 1
        sleep 0.1
    done
    sleep 0.2
    ask "$1" "$2" "$3"
    kill $server && wait $server
}

# KIND LENGTH REQUESTS
compare() {
    for _ in $(seq "$tries"); do
        ours=$(rate_of "$@" "$program") && plain=$(rate_of "$@" ./plain_serve serve) && other=$(rate_of_nginx "$@") || exit
        echo "$ours $plain $other"
    done >rates
    python3 - "$1" "$2" <<'END'
import statistics, sys
kind, length = sys.argv[1], int(sys.argv[2])
rates = list(zip(*(map(float, line.split()) for line in open("rates"))))
for name, own in zip(("ours", "plain", "nginx"), rates):
    any(own) and print(f"{kind:7} {name:6} best {max(own):6.0f}, median {statistics.median(own):6.0f} requests/s  {max(own) * length / 2**20:5.0f} MiB/s")
for name, of in (("best", max), ("median", statistics.median)):
    ours, plain, other = map(of, rates)
    beside = f", {ours / other:.2f} to nginx" if other else ""
    print(f"{kind:7} ratio of the {name} of {len(rates[0])}: {ours / plain:.2f} to plain{beside}")
END
}

compare ranges 65536 "$ranges" && compare wholes 262144 $((ranges / 4))
