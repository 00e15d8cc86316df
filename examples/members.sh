#!/bin/sh
# Starts the two members of registry.txt on this machine, runs a command, and ends with its status: examples/members.sh [-- COMMAND..]
#
# The members serve lab.nt and library.nt at the ports 8001 and 8002. Where no command is given it is
# `./fedx query examples/registry.txt examples/enzymes.rq`.
set -u
here=$(cd "$(dirname "$0")" && pwd)
fedx=$here/../fedx
# (a program that isn't built yet is made first, where that can be seen)
"$here/../tools/choose" </dev/null >/dev/null || exit
if [ $# -gt 0 ]; then
    [ "$1" = -- ] && [ $# -gt 1 ] || { echo "usage: examples/members.sh [-- COMMAND..]" >&2; exit 2; }
    shift
else
    set -- "$fedx" query "$here/registry.txt" "$here/enzymes.rq"
fi

# A member that isn't ready yet refuses connections.
wait_for() {
    tries=0
    until "$fedx" query "$1" "$here/across.rq" >/dev/null 2>&1; do
        tries=$((tries + 1))
        [ $tries -lt 50 ] || { echo "members.sh: no member at $2" >&2; exit 1; }
        sleep 0.1
    done
}

"$fedx" member "$here/lab.nt" 127.0.0.1:8001 2>/dev/null &
lab=$!
"$fedx" member "$here/library.nt" 127.0.0.1:8002 2>/dev/null &
library=$!
trap 'kill $lab $library 2>/dev/null' EXIT
wait_for "$here/registry.txt" "127.0.0.1:8001 and 127.0.0.1:8002"
"$@"
