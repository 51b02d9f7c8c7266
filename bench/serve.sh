#!/usr/bin/env bash
# What a server's replies cost, in processor time, of each kind of request.
#   bench/serve.sh [-r ROUNDS] [-s SECONDS] [-w WORKERS] [-- COMMAND ..]
# bench/serve.py says what is measured and printed. The program is built first, unless there is a COMMAND, which is
# another tracker's: `@PORT@` stands in it for a port, `@DIR@` for a directory whose file `list` has the hashes.
# Debian's, as root: bench/serve.sh -- opentracker -i 127.0.0.1 -p @PORT@ -P @PORT@ -d @DIR@ -u nobody -w list
set -euo pipefail
cd "$(dirname "$0")/.."
case " $* " in
    *" -- "*) ;;
    *) ./opentracker drill 1 0 1 >/dev/null ;;
esac
exec python3 bench/serve.py "$@"
