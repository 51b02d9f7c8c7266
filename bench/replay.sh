#!/usr/bin/env bash
# How fast the built program replays a trace, and with how much memory.
#   bench/replay.sh [KIND ..]
# The kinds are those of bench/traces.py, at first all of them. For each it prints records a second of processor time in
# three runs (one for the big swarms), the time as a ratio to the fastest of three `wc -l` on the same file, the peak
# memory, and the ratio to the connects' records a second; where peers are stored also the bytes of memory a stored peer.
# bench/RESULTS.md has what was measured.
set -euo pipefail
cd "$(dirname "$0")/.."
kinds=${*:-announces http torrent swarm stops scrape scrapes scrape_of_1000 scrapes_of_1000 full_swarm few torrents}
work=$(mktemp -d)
trap 'rm -rf "$work"' EXIT
./opentracker replay </dev/null
program=crates/opentracker/out/opentracker

# How many records there are of a kind, how many runs are made, how many peers are stored at the end, and the settings.
size() {
    case $1 in
        connects) echo 1000000 3 0 ;;
        announces) echo 1000000 3 100000 ;;
        http) echo 300000 3 100000 ;;
        torrent) echo 100000 3 1000 ;;
        swarm) echo 20000 1 20000 ;;
        stops) echo 1000000 3 0 ;;
        scrape) echo 1000000 3 0 ;;
        scrapes) echo 50000 3 0 ;;
        scrape_of_1000) echo 100000 3 0 ;;
        scrapes_of_1000) echo 10000 1 0 ;;
        full_swarm) echo 2000000 1 1000000 peers=1000000 ;;
        few) echo 1000000 1 100000 bits=0 ;;
        torrents) echo 1000000 1 100000 bits=0 torrents=1000000 ;;
        *) echo "bench/replay.sh: there is no kind $1" >&2 && return 1 ;;
    esac
}

# Seconds of processor time, of the user's and the system's part, and peak memory in KiB of a command with this input. The
# peak is the kernel's own mark of it, looked at each 2 ms: what `wait` tells after the end is no less than the size of the
# process that began the command.
measure() {
    python3 - "$@" <<'PY'
import os, re, subprocess, sys, threading, time
peak = 0
def watch(pid):
    global peak
    while True:
        try:
            with open(f"/proc/{pid}/status") as status:
                mark = re.search(r"VmHWM:\s*(\d+) kB", status.read())
        except OSError:
            return
        if not mark:
            return
        peak = max(peak, int(mark[1]))
        time.sleep(0.002)
with open(sys.argv[1], "rb") as trace:
    child = subprocess.Popen(sys.argv[2:], stdin=trace, stdout=subprocess.DEVNULL)
watcher = threading.Thread(target=watch, args=(child.pid,))
watcher.start()
watcher.join()
_, status, usage = os.wait4(child.pid, 0)
assert status == 0, status
print(f"{usage.ru_utime + usage.ru_stime:.6f} {peak}")
PY
}

# replay KIND RECORDS RUNS SETTING..: sets `rate`, of the fastest run, and `peak`, of the last.
replay() {
    local trace=$work/trace lines run seconds one
    python3 bench/traces.py "$1" "$2" >"$trace"
    lines=$(for run in 1 2 3; do measure "$trace" wc -l; done | cut -d' ' -f1 | sort -n | head -n 1)
    rate=0
    for run in $(seq "$3"); do
        read -r seconds peak < <(measure "$trace" "$program" replay "${@:4}")
        one=$(awk -v n="$(wc -l <"$trace")" -v s="$seconds" 'BEGIN { printf "%d", n / s }')
        rate=$((one > rate ? one : rate))
        awk -v kind="$1" -v n="$2" -v run="$run" -v rate="$one" -v s="$seconds" -v l="$lines" -v peak="$peak" 'BEGIN {
            printf "%s %d, run %d: %d records a second, %.1f times wc -l, %.1f MiB peak\n", kind, n, run, rate, s / l, peak / 1024 }'
    done
}

replay connects 100000 1
replay connects 1000000 3
base=$rate least=$peak
for kind in $kinds; do
    read -r records runs peers settings < <(size "$kind")
    # shellcheck disable=SC2086 -- settings are words
    replay "$kind" "$records" "$runs" $settings
    awk -v kind="$kind" -v peers="$peers" -v rate="$rate" -v base="$base" -v peak="$peak" -v least="$least" 'BEGIN {
        printf "%s: %.4f of the connects a second", kind, rate / base
        if (peers) printf ", %d bytes a stored peer", (peak - least) * 1024 / peers
        print "" }'
done
