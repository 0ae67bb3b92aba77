#!/bin/sh
# A cutout of 256 x 256 x 256 bytes in chunks of 64 x 64 x 64 over the loopback, by vol_fetch and by the plain program beside this
# script, with the same requests over one connection: of files and of shards, from vol_tool, and from nginx where it is installed. All
# files are in the page cache. Seven tries in turn, the best of each. Wanted: a ratio of at most 1.2.
#
#     bench/fetch.sh [PROGRAM [SERVER]]
#
# PROGRAM is the built vol_fetch if it is left out, and SERVER vol_tool. It wants rustc, Python, and 80 MiB free where TMPDIR says.

root=$(cd "$(dirname "$0")/.." && pwd) || exit
tool=$(realpath "${2:-$root/crates/vol_tool/out/vol_tool}") || exit
set -- plain_fetch "${1:-$root/crates/vol_fetch/out/vol_fetch}"
. "$root/bench/against.sh"
box='[0:256,0:256,0:256]'

for name in plain_cutout plain_sharded; do
    rustc --edition 2021 -O -o $name "$root/bench/$name.rs" || exit
done
./plain_cutout cube make files && ./plain_sharded cube make shards && cat files/info files/s/* shards/info shards/s/* >/dev/null || exit

# SERVER FORM PORT
compare() {
    echo "$2 from $1"
    python3 "$root/bench/compare.py" 7 \
        "'$program' 127.0.0.1 $3 $2 s $box" \
        "./plain_fetch cube $2 127.0.0.1 $3 $box" || exit
}

# FORM
compare_with_own() {
    : >port
    "$tool" serve "$1" --port=0 --connections=65536 >>port &
    server=$!
    until grep -q '^listening ' port; do
        kill -0 $server 2>/dev/null || exit 1
        sleep 0.1
    done
    compare vol_tool "$1" "$(cut -d ' ' -f 2 port)"
    kill $server
    wait $server 2>/dev/null
}

# FORM
compare_with_nginx() {
    port=$(python3 -c 'import socket; door = socket.create_server(("127.0.0.1", 0)); print(door.getsockname()[1])')
    cat >nginx.conf <<END
worker_processes 1; pid $PWD/nginx.pid; error_log /dev/null; daemon off; master_process off;
events { worker_connections 64; }
http {
    access_log off; sendfile on; keepalive_requests 1000000; default_type application/octet-stream;
    client_body_temp_path $PWD/nginx.body; proxy_temp_path $PWD/nginx.proxy; fastcgi_temp_path $PWD/nginx.fastcgi;
    uwsgi_temp_path $PWD/nginx.uwsgi; scgi_temp_path $PWD/nginx.scgi;
    server { listen 127.0.0.1:$port; root $PWD/$1; }
}
END
    nginx -p "$PWD" -c "$PWD/nginx.conf" 2>/dev/null &
    server=$!
    sleep 1
    compare nginx "$1" "$port"
    kill $server
    wait $server 2>/dev/null
}

for form in files shards; do
    compare_with_own $form
    if command -v nginx >/dev/null; then compare_with_nginx $form; fi
done
