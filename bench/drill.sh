#!/usr/bin/env bash
# How fast the built program makes a generated load, with more workers and more buckets.
#   bench/drill.sh [COUNT]
# COUNT requests, at first 1,000,000, are made by 1, 2, 4 and 64 workers on 1, 16 and 1,024 buckets. For each it prints the
# median of three runs: requests a second, as a number and as a ratio to one worker on as many buckets, and processor time,
# of the user's and the system's part, in seconds. The text has to be the same for any number of workers.
set -euo pipefail
cd "$(dirname "$0")/.."
count=${1:-1000000}
./opentracker drill 1 0 1 >/dev/null
COUNT=$count python3 - <<'PY'
import os
import resource
import statistics
import subprocess
import sys
import time

PROGRAM = "crates/opentracker/out/opentracker"
COUNT = int(os.environ["COUNT"])


def run(workers, bits):
    """Seconds that passed, seconds of processor time, and the text."""
    words = [PROGRAM, "drill", "1", str(COUNT), str(workers), f"bits={bits}"]
    before = resource.getrusage(resource.RUSAGE_CHILDREN)
    start = time.monotonic()
    text = subprocess.run(words, check=True, stdout=subprocess.PIPE).stdout
    passed = time.monotonic() - start
    after = resource.getrusage(resource.RUSAGE_CHILDREN)
    spent = after.ru_utime - before.ru_utime + after.ru_stime - before.ru_stime
    return passed, spent, text


print(f"{os.cpu_count()} processors, {COUNT} requests")
print("bits workers requests/s  ratio  processor s")
for bits in (0, 4, 10):
    alone, first = None, None
    for workers in (1, 2, 4, 64):
        runs = [run(workers, bits) for _ in range(3)]
        first = first or runs[0][2]
        if any(text != first for _, _, text in runs):
            sys.exit(f"bench/drill.sh: {workers} workers on {bits} bits write another text")
        rate = COUNT / statistics.median(passed for passed, _, _ in runs)
        spent = statistics.median(spent for _, spent, _ in runs)
        alone = alone or rate
        print(f"{bits:4} {workers:7} {rate:10.0f} {rate / alone:6.2f} {spent:12.2f}")
PY
