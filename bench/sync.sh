#!/usr/bin/env bash
# What sharing with another node and cleaning cost a server; bench/sync.py says what is measured and printed.
#   bench/sync.sh [-r ROUNDS] [-s SECONDS] [-w WORKERS]
#   bench/sync.sh -c [-m MINUTES] [-w WORKERS]      the cleaner, in some minutes
set -euo pipefail
cd "$(dirname "$0")/.."
./opentracker drill 1 0 1 >/dev/null
exec python3 bench/sync.py "$@"
