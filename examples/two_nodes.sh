#!/usr/bin/env bash
# Whether two servers on this machine tell one another of their peers.
#   examples/two_nodes.sh [PROGRAM]     where none is given it is ./opentracker, which is built where need be
# Starts two servers at free ports of 127.0.0.1, each with HTTP and with the other as its one node. Announces a seed to
# the first, waits until a scrape of the second counts it, has it stop at the first, waits until the second counts
# nobody, and does the same the other way round. Then it closes both inputs, so both servers end by themselves.
set -euo pipefail
cd "$(dirname "$0")/.."
program=${1:-./opentracker}
secret=0123456789abcdef0123456789abcdef01234567
hash=aaaaaaaaaaaaaaaaaaaa
work=$(mktemp -d)
servers=()

# Closes the inputs, by which the servers end. One that doesn't within thirty seconds is killed.
end_servers() {
    exec 8>&- 9>&-
    local server status=0
    for server in "${servers[@]}"; do
        for _ in $(seq 300); do
            kill -0 "$server" 2>/dev/null || break
            sleep 0.1
        done
        kill -KILL "$server" 2>/dev/null || true
        wait "$server" || status=$?
    done
    servers=()
    return "$status"
}
trap 'end_servers || true; rm -rf "$work"' EXIT

fail() {
    echo "examples/two_nodes.sh: $1" >&2
    cat "$work"/*.log >&2 2>/dev/null || true
    exit 1
}

for needed in curl python3 "$program"; do
    command -v "$needed" >/dev/null || fail "$needed is missing"
done
[ "$#" -gt 0 ] || "$program" drill 1 0 1 >/dev/null || fail "the program can't be built"

# Four ports that nobody has: two for connections, two for what the nodes tell each other.
read -r first_http second_http first_sync second_sync < <(python3 - <<'PORTS'
from socket import AF_INET, SOCK_DGRAM, SOCK_STREAM, socket

taken = [socket(AF_INET, kind) for kind in (SOCK_STREAM, SOCK_STREAM, SOCK_DGRAM, SOCK_DGRAM)]
for one in taken:
    one.bind(("127.0.0.1", 0))
print(*(one.getsockname()[1] for one in taken))
PORTS
) || fail "there are no free ports"

# start NUMBER HTTP SYNC OTHER INPUT: a server whose input stays open as long as this script has it.
start() {
    "$program" serve "http=127.0.0.1:$2" "secret=$secret" "sync=127.0.0.1:$3" "nodes=127.0.0.1:$4" "id=$1" \
        <"$5" >"$work/$1.out" 2>"$work/$1.log" 8>&- 9>&- &
    servers+=($!)
}

mkfifo "$work/1" "$work/2"
start 1 "$first_http" "$first_sync" "$second_sync" "$work/1"
start 2 "$second_http" "$second_sync" "$first_sync" "$work/2"
exec 8>"$work/1" 9>"$work/2"

ask() {
    curl --silent --show-error --fail --max-time 2 "$@"
}

# await PORT: waits until a server answers there, for at most ten seconds.
await() {
    for _ in $(seq 100); do
        ask "http://127.0.0.1:$1/scrape?info_hash=$hash" >/dev/null 2>&1 && return
        sleep 0.1
    done
    fail "no server answers at port $1"
}

# announce PORT MORE: of the one peer, which is at port 51413 of 127.0.0.1.
announce() {
    ask "http://127.0.0.1:$1/announce?info_hash=$hash&peer_id=-XX0001-abcdefghijkl&port=51413&left=0$2" >/dev/null ||
        fail "the announce at port $1 has no reply"
}

# How many seeds a server counts: none where it doesn't know the torrent.
seeds() {
    local told
    told=$(ask "http://127.0.0.1:$1/scrape?info_hash=$hash" | LC_ALL=C sed -n 's/.*8:completei\([0-9]*\)e.*/\1/p')
    echo "${told:-0}"
}

# await_seeds PORT COUNT: waits until a server counts so many, for at most twenty seconds.
await_seeds() {
    for _ in $(seq 200); do
        [ "$(seeds "$1")" -eq "$2" ] && return
        sleep 0.1
    done
    fail "the server at port $1 counts $(seeds "$1") seeds, and not $2"
}

# cross FROM TO: what is announced at one is known at the other.
cross() {
    announce "$1" "&event=started"
    await_seeds "$2" 1
    announce "$1" "&event=stopped"
    await_seeds "$2" 0
}

await "$first_http"
await "$second_http"
cross "$first_http" "$second_http"
echo "a seed of the first node was known at the second, and gone when it had stopped"
cross "$second_http" "$first_http"
echo "a seed of the second node was known at the first, and gone when it had stopped"
end_servers || fail "a server ended with the status $?"
cat "$work/1.out" "$work/2.out"
