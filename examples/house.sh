#!/bin/sh
# Starts a federation as an endpoint, and a member beside it, on this machine, runs a command, and ends with its status: examples/house.sh [-- COMMAND..]
#
# `serve` answers over the two members that members.sh starts, at the port 8006; a member serves reviews.nt at the port 8007. Where no command
# is given it is `./fedx query examples/house.txt examples/reviewers.rq`.
set -u
here=$(cd "$(dirname "$0")" && pwd)
fedx=$here/../fedx
if [ $# -gt 0 ]; then
    [ "$1" = -- ] && [ $# -gt 1 ] || { echo "usage: examples/house.sh [-- COMMAND..]" >&2; exit 2; }
    shift
else
    set -- "$fedx" query "$here/house.txt" "$here/reviewers.rq"
fi

# The two members stand while this runs again.
if [ -z "${HOUSE_STANDS:-}" ]; then
    HOUSE_STANDS=1 exec "$here/members.sh" -- "$0" -- "$@"
fi

"$fedx" serve "$here/registry.txt" 127.0.0.1:8006 2>/dev/null &
house=$!
"$fedx" member "$here/reviews.nt" 127.0.0.1:8007 2>/dev/null &
reviews=$!
trap 'kill $house $reviews 2>/dev/null' EXIT

# An endpoint that isn't ready yet refuses connections.
tries=0
until "$fedx" query "$here/house.txt" "$here/reviewers.rq" >/dev/null 2>&1; do
    tries=$((tries + 1))
    [ $tries -lt 50 ] || { echo "house.sh: no endpoints at 127.0.0.1:8006 and 127.0.0.1:8007" >&2; exit 1; }
    sleep 0.1
done
"$@"
