#!/bin/sh
# Asks two endpoints made with rdflib, and two made with Jena, where these are installed, in place of the two members of registry.txt, and compares each answer with what
# the members give. Ends with 1 where one differs.
set -u
here=$(cd "$(dirname "$0")" && pwd)
fedx=$here/../fedx
failed=0
room=
lab='' library=''
stop() {
    kill $lab $library 2>/dev/null
    wait 2>/dev/null
    lab='' library=''
}
trap 'stop; [ -z "$room" ] || rm -r "$room"' EXIT
trap 'exit 143' TERM INT

# What the members give, the first time that it is wanted.
members() {
    [ -z "$room" ] || return 0
    # (a program that isn't built yet is made first, where that can be seen)
    "$here/../tools/choose" </dev/null >/dev/null || exit
    room=$(mktemp -d)
    for query in across guests plan salts service; do
        "$here/members.sh" -- "$fedx" query "$here/registry.txt" "$here/$query.rq" >"$room/$query" 2>&1
    done
}

# Compares the answers of two endpoints: the name of the engine, and the command that starts one over a graph at a port.
compare() {
    name=$1
    shift
    members
    "$@" "$here/lab.nt" 8001 &
    lab=$!
    "$@" "$here/library.nt" 8002 &
    library=$!

    # An endpoint that isn't ready yet refuses connections.
    tries=0
    until "$fedx" query "$here/registry.txt" "$here/across.rq" >/dev/null 2>&1; do
        tries=$((tries + 1))
        [ $tries -lt 600 ] || { echo "endpoints.sh: no endpoints of $name at 127.0.0.1:8001 and 127.0.0.1:8002" >&2; exit 1; }
        sleep 0.1
    done
    kill -0 $lab && kill -0 $library || { echo "endpoints.sh: the ports 8001 and 8002 aren't free" >&2; exit 1; }

    for query in across guests plan salts service; do
        if "$fedx" query "$here/registry.txt" "$here/$query.rq" 2>&1 | cmp -s - "$room/$query"; then
            echo "$name as an endpoint, $query.rq: as members answer"
        else
            echo "$name as an endpoint, $query.rq: not as members answer"
            failed=1
        fi
    done
    stop
}

# (the Python of the path, or the distribution's own)
for python in python3 /usr/bin/python3; do
    "$python" -c "import rdflib" 2>/dev/null && break
    python=
done
if [ -n "$python" ]; then
    compare rdflib "$python" "$here/rdflib_endpoint.py"
else
    echo "rdflib as an endpoint: not here"
fi

if "$here/jena.sh" 2>/dev/null; then
    compare Jena "$here/jena.sh" "$here/java/JenaEndpoint.java"
else
    echo "Jena as an endpoint: not here"
fi

exit $failed
