#!/bin/sh
# Runs a server with an input that is held open until this script is told to end:
#   examples/held_input.sh [-l LIST] COMMAND ..
# The input begins with the lines of the file LIST and the line `end`, where one is given. On SIGTERM, SIGINT or SIGHUP
# the input is closed, so the server ends by itself and writes its summary; this script waits for that and ends with the
# server's status. It does so too where the server ends earlier.
set -u
list=
[ "${1:-}" = -l ] && { list=${2:-}; shift 2; }
[ "$#" -gt 0 ] || { echo "examples/held_input.sh: there is no command" >&2; exit 2; }
if [ -n "$list" ] && [ ! -r "$list" ]; then
    echo "examples/held_input.sh: $list can't be read" >&2
    exit 2
fi
dir=
trap 'rm -rf "$dir"; exit 143' TERM INT HUP
dir=$(mktemp -d) && mkfifo "$dir/input" || exit 1
# With an end for both directions there, neither of the others waits for the other.
exec 4<>"$dir/input" 3>"$dir/input" 5<"$dir/input"
exec 4>&-
rm -r "$dir"
trap 'exec 3>&-' TERM INT HUP
# The server has the reading end alone. It would never see the end of an input that it could write itself.
"$@" <&5 3>&- 5<&- &
server=$!
exec 5<&-
[ -z "$list" ] || (cat -- "$list" && echo && echo end) >&3 2>/dev/null
# A signal ends a wait, so the server is waited for again.
while :; do
    wait "$server"
    status=$?
    kill -0 "$server" 2>/dev/null || exit "$status"
done
