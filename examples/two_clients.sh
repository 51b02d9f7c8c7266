#!/usr/bin/env bash
# Whether two clients find one another by a tracker on this machine, and nothing else.
#   examples/two_clients.sh PORT     tries the tracker at 127.0.0.1, which serves both protocols at this port
#   examples/two_clients.sh hashes   prints the two torrents' hashes, for an access list
# Transmission seeds a file and aria2 fetches it, once with an HTTP tracker's URL and once with a UDP tracker's. The
# torrents are private and have no other tracker; peer exchange, the distributed hash table and local discovery are off.
# So the one at PORT alone can tell aria2 where Transmission is. (Transmission connects to no peer at 127.0.0.1, so it
# is the one that seeds. aria2 asks UDP trackers by the socket of its hash table, which is on there: the table is empty,
# it is told of no node, and it isn't asked for private torrents.) What came is compared with what was seeded.
# Debian: apt-get install transmission-daemon transmission-cli aria2 mktorrent curl
set -euo pipefail
work=$(mktemp -d)
seeder=
control=$((30000 + RANDOM % 2000))
end_seeder() {
    [ -z "$seeder" ] || { kill -TERM "$seeder" 2>/dev/null && wait "$seeder" 2>/dev/null; } || true
    seeder=
}
trap 'end_seeder; rm -rf "$work"' EXIT

fail() {
    echo "examples/two_clients.sh: $1" >&2
    exit 1
}

for needed in transmission-daemon transmission-remote transmission-show aria2c mktorrent curl cmp; do
    command -v "$needed" >/dev/null || fail "$needed is missing"
done

# make PROTOCOL URL: a file of some megabytes, the same at each run, and its torrent.
make() {
    mkdir -p "$work/$1/seeded" "$work/$1/fetched" "$work/$1/settings"
    seq -f "a line of a file that is told of by $1: %.0f" 80000 >"$work/$1/seeded/$1.txt"
    mktorrent -p -d -l 16 -a "$2" -o "$work/$1/$1.torrent" "$work/$1/seeded/$1.txt" >/dev/null
}

hash_of() {
    transmission-show "$work/$1/$1.torrent" | sed -n 's/^ *Hash: *//p'
}

# How many seeds the tracker counts: none where it doesn't know the torrent.
seeds() {
    local told
    told=$(curl --silent --max-time 2 "http://127.0.0.1:$port/scrape?info_hash=$(hash_of "$1" | sed 's/../%&/g')" |
        LC_ALL=C sed -n 's/.*8:completei\([0-9]*\)e.*/\1/p')
    echo "${told:-0}"
}

# await_seeds PROTOCOL COMPARISON COUNT: waits until their number compares so, for at most twenty seconds.
await_seeds() {
    for _ in $(seq 100); do
        [ "$(seeds "$1")" "$2" "$3" ] && return
        sleep 0.2
    done
    return 1
}

remote() {
    transmission-remote "127.0.0.1:$control" "$@" >>"$work/remote.log" 2>&1
}

# seed PROTOCOL PORT: adds the torrent to a Transmission of its own.
seed() {
    echo '{ "pex-enabled": false }' >"$work/$1/settings/settings.json"
    transmission-daemon --foreground --config-dir "$work/$1/settings" --download-dir "$work/$1/seeded" \
        --peerport "$2" --rpc-bind-address 127.0.0.1 --port "$control" --no-auth --no-portmap --no-dht --no-lpd \
        >"$work/$1/seeder.log" 2>&1 &
    seeder=$!
    for _ in $(seq 50); do
        remote --add "$work/$1/$1.torrent" && return
        sleep 0.2
    done
    fail "Transmission doesn't start: $(tail -n 3 "$work/$1/seeder.log")"
}

# fetch PROTOCOL PORT
fetch() {
    local table=false
    [ "$1" = udp ] && table=true
    aria2c --dir="$work/$1/fetched" --listen-port="$2" --seed-time=0 --bt-stop-timeout=30 \
        --enable-dht="$table" --dht-listen-port="$2" --dht-file-path="$work/$1/table" --enable-dht6=false \
        --enable-peer-exchange=false --bt-enable-lpd=false --no-conf --log-level=info \
        --log="$work/$1/fetcher.log" --quiet "$work/$1/$1.torrent"
}

# try PROTOCOL URL: seeds and fetches one file.
try() {
    local begun=$SECONDS before
    make "$1" "$2"
    before=$(seeds "$1")
    seed "$1" $((20000 + RANDOM % 5000))
    await_seeds "$1" -gt "$before" || fail "the tracker doesn't count the seeder, by $1"
    fetch "$1" $((25000 + RANDOM % 5000)) || fail "nothing was fetched by $1: $(tail -n 3 "$work/$1/fetcher.log")"
    cmp "$work/$1/seeded/$1.txt" "$work/$1/fetched/$1.txt" || fail "what was fetched by $1 is another file"
    remote --torrent all --stop
    await_seeds "$1" -le "$before" || fail "the tracker isn't told by $1 that both clients stopped"
    end_seeder
    echo "by $1: the same file came within $((SECONDS - begun)) s, and the tracker saw both clients go"
}

case ${1:-} in
    hashes)
        for protocol in http udp; do
            make "$protocol" "http://127.0.0.1/announce"
            hash_of "$protocol"
        done
        ;;
    [1-9]*)
        port=$1
        try http "http://127.0.0.1:$port/announce"
        try udp "udp://127.0.0.1:$port/announce"
        ;;
    *) fail "give a port, or the word hashes" ;;
esac
