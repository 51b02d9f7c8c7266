#!/usr/bin/env python3
"""What the largest things that a replay may meet cost: bench/extremes.py [CASE ..]

full_scrape  a scrape of 1,000,000 torrents in 1,024 buckets
expiry       one announce that drops 1,000,000 stale peers of its torrent, beside one that drops none
told         announces that want 0, 50 and 200 peers, to one torrent of 1,000,000
access       an access list of 1,000,000 hashes: to read it, and to announce with it

Each case but `expiry` replays two traces that differ in what is asked about, three times in turn, and tells the difference
of the least processor times (user and system) and of the peaks of memory. bench/RESULTS.md has what was measured.
"""
import os
import subprocess
import sys
import tempfile
import threading
import time

import traces

PROGRAM = os.path.join(os.path.dirname(__file__), "..", "crates", "opentracker", "out", "opentracker")
ROUNDS = 3


def replay(path, settings):
    """Seconds of processor time, and the peak of memory in KiB."""
    with open(path, "rb") as trace:
        child = subprocess.Popen([PROGRAM, "replay", *settings], stdin=trace, stdout=subprocess.DEVNULL)
    peak = 0

    def watch():
        nonlocal peak
        while True:
            try:
                with open(f"/proc/{child.pid}/status") as status:
                    lines = [line for line in status if line.startswith("VmHWM")]
            except OSError:
                return
            if not lines:
                return
            peak = max(peak, int(lines[0].split()[1]))
            time.sleep(0.002)

    watcher = threading.Thread(target=watch)
    watcher.start()
    watcher.join()
    _, status, usage = os.wait4(child.pid, 0)
    assert status == 0, status
    return usage.ru_utime + usage.ru_stime, peak


def compare(work, settings, *makers):
    """The least processor time and the least peak of each trace, of which each maker writes one."""
    paths = []
    for number, make in enumerate(makers):
        paths.append(os.path.join(work, str(number)))
        with open(paths[-1], "w") as trace:
            make(trace.write)
    runs = [[replay(path, each) for path, each in zip(paths, settings)] for _ in range(ROUNDS)]
    return [tuple(min(run[i][part] for run in runs) for part in (0, 1)) for i in range(len(paths))]


def same(settings, count):
    return [settings] * count


def full_scrape(work):
    torrents = 1_000_000
    head = b"GET /scrape HTTP/1.1\r\nHost: t\r\n\r\n".hex()

    def known(write):
        traces.announces(torrents, write, torrents, torrents, 1_000)

    def scraped(write):
        known(write)
        write(f"H 1000 10.0.0.1 6881 {head}\n")

    (without, low), (with_, high) = compare(work, same(["full=on"], 2), known, scraped)
    row = len("20:") + 20 + len("d8:completei0e10:downloadedi0e10:incompletei1ee")
    print(f"full scrape: {torrents * row / 1e6 / (with_ - without):.0f} MB of body a second, {high - low} KiB above the peak")


def ticks(process):
    """Processor time of a process so far, in ticks of the kernel."""
    with open(f"/proc/{process.pid}/stat") as stat:
        fields = stat.read().rsplit(")", 1)[1].split()
    return int(fields[11]) + int(fields[12])


def settled(process):
    """The same, once the process has been idle for half a second."""
    last, still = -1, 0
    while still < 5:
        time.sleep(0.1)
        now = ticks(process)
        still = still + 1 if now == last else 0
        last = now
    return last / os.sysconf("SC_CLK_TCK")


def expiry(work):
    """Asks the process itself, before and after: the difference of two whole runs isn't as exact."""
    peers, late, usual = 1_000_000, 47 * 60, 50_000
    child = subprocess.Popen([PROGRAM, "replay", "peers=1000000"], stdin=subprocess.PIPE, stdout=subprocess.DEVNULL)

    def after(records):
        for record in records:
            child.stdin.write(record.encode())
        child.stdin.flush()
        return settled(child)

    filled = after(traces.announce(who, 0, who, 0, 1) for who in range(peers))
    renewed = after(traces.announce(who, 60, who, 0, 1) for who in range(usual))
    dropped = after([traces.announce(0, late, 0, 0, 1)])
    child.stdin.close()
    assert child.wait() == 0
    print(f"expiry: one announce that drops {peers} peers: {1e3 * (dropped - renewed):.0f} ms; "
          f"a usual one {1e6 * (renewed - filled) / usual:.1f} us")


def told(work):
    peers, extra = 1_000_000, 300_000

    def announced(want):
        def write_all(write):
            for who in range(peers):
                write(traces.announce(who, who // 1_000, who, 0, 1, want=0))
            for i in range(extra):
                write(traces.announce(i, 1_000 + i // 1_000, i, 0, 1, want=want))

        return write_all

    def fill(write):
        for who in range(peers):
            write(traces.announce(who, who // 1_000, who, 0, 1, want=0))

    (base, _), *rest = compare(work, same(["peers=1000000"], 4), fill, announced(0), announced(50), announced(200))
    costs = [(seconds - base) / extra * 1e9 for seconds, _ in rest]
    print("told: an announce that wants 0, 50, 200 of 1,000,000 peers: " + ", ".join(f"{cost:.0f} ns" for cost in costs)
          + f" (1 : {costs[1] / costs[0]:.2f} : {costs[2] / costs[0]:.2f})")


def access(work):
    hashes, records = 1_000_000, 500_000

    def listed(count):
        def write_all(write):
            for i in range(hashes):
                write(traces.info_hash(-1 - i).hex() + "\n")
            write("end\n")
            traces.announces(count, write)

        return write_all

    def plain(write):
        traces.announces(records, write)

    def nothing(write):
        pass

    settings = [["access=deny"], ["access=deny"], [], []]
    cases = compare(work, settings, listed(0), listed(records), nothing, plain)
    (read, high), (with_, _), (least, low), (without, _) = cases
    cost, usual = (with_ - read) / records * 1e9, (without - least) / records * 1e9
    print(f"access: {1e3 * (read - least):.0f} ms to read {hashes} hashes, {(high - low) * 1024 / hashes:.1f} bytes a hash at the peak; "
          f"an announce {cost:.0f} ns with the list and {usual:.0f} without ({cost / usual:.2f})")


CASES = {case.__name__: case for case in (full_scrape, expiry, told, access)}


def main():
    for name in sys.argv[1:] or CASES:
        with tempfile.TemporaryDirectory() as work:
            CASES[name](work)


main()
