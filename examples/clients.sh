#!/bin/sh
# Starts a member on this machine, and a federation of two others, and asks both the same query with each client that is installed, passing over the
# others by name. Ends with 1 where one of them gets anything but the answer.
set -u
here=$(cd "$(dirname "$0")" && pwd)
query='SELECT ?friend WHERE { <http://example.org/ann> <http://xmlns.com/foaf/0.1/knows> ?friend }'
wanted='http://example.org/bob http://example.org/cem'
failed=0

# (a program that isn't built yet is made first, where that can be seen)
"$here/../tools/choose" </dev/null >/dev/null || exit
# (of the two triples that the query is for, the federation's members have one each)
room=$(mktemp -d)
grep cem "$here/people.nt" >"$room/cem.nt"
grep -v cem "$here/people.nt" >"$room/others.nt"
printf 'OTHERS http://127.0.0.1:8003/sparql\nCEM http://127.0.0.1:8005/sparql\n' >"$room/registry.txt"
"$here/../fedx" member "$here/people.nt" 127.0.0.1:8004 2>/dev/null &
member=$!
"$here/../fedx" member "$room/others.nt" 127.0.0.1:8003 2>/dev/null &
others=$!
"$here/../fedx" member "$room/cem.nt" 127.0.0.1:8005 2>/dev/null &
cem=$!
"$here/../fedx" serve "$room/registry.txt" 127.0.0.1:8006 2>/dev/null &
federation=$!
trap 'kill $member $others $cem $federation 2>/dev/null; rm -r "$room"' EXIT

# The values of a results document, one behind the other.
values() {
    grep -o '"value":"[^"]*"' | cut -d '"' -f 4 | sort | tr '\n' ' ' | sed 's/ $//'
}

# What a client got, by its name.
got() {
    if [ "$2" = "$wanted" ]; then
        echo "$1: $2"
    else
        echo "$1: wanted $wanted, got $2"
        failed=1
    fi
}

# Whether a command is there, or a line that it isn't.
has() {
    command -v "$1" >/dev/null 2>&1 || { echo "$1: not here"; return 1; }
}

# Whether a module is there, of the Python of the path or of the distribution's own, which is $python then, or a line that it isn't.
has_module() {
    for python in python3 /usr/bin/python3; do
        "$python" -c "import $1" 2>/dev/null && return
    done
    echo "$1: not here"
    return 1
}

# An endpoint that isn't ready yet refuses connections.
for port in 8003 8004 8005 8006; do
    tries=0
    until python3 -c "import socket; socket.create_connection(('127.0.0.1', $port)).close()" 2>/dev/null; do
        tries=$((tries + 1))
        [ $tries -lt 50 ] || { echo "clients.sh: no endpoint at the port $port" >&2; exit 1; }
        sleep 0.1
    done
done

# Asks an endpoint with each client.
ask_all() {
    url=$1
    if has curl; then
        got "curl, POST of the query" "$(curl --silent --header 'Content-Type: application/sparql-query' --data "$query" "$url" | values)"
        got "curl, POST of a form" "$(curl --silent --data-urlencode "query=$query" "$url" | values)"
        got "curl, GET" "$(curl --silent --get --data-urlencode "query=$query" "$url" | values)"
    fi

    if has wget; then
        got "wget" "$(wget --quiet --output-document - --header 'Content-Type: application/sparql-query' --post-data "$query" "$url" | values)"
    fi

    got "python3, urllib" "$(python3 - "$url" "$query" <<'END'
import json, sys, urllib.parse, urllib.request

url, query = sys.argv[1:]
with urllib.request.urlopen(url, urllib.parse.urlencode({"query": query}).encode()) as reply:
    rows = json.load(reply)["results"]["bindings"]
print(*sorted(row["friend"]["value"] for row in rows))
END
    )"

    if has node; then
        got "node, fetch" "$(node - "$url" "$query" <<'END'
const [url, query] = process.argv.slice(2);
fetch(url, { method: "POST", headers: { "Content-Type": "application/sparql-query" }, body: query })
    .then(reply => reply.json())
    .then(document => console.log(document.results.bindings.map(row => row.friend.value).sort().join(" ")));
END
    )"
    fi

    if has perl; then
        if perl -MLWP::UserAgent -e 1 2>/dev/null; then
            got "perl, LWP" "$(perl -MLWP::UserAgent -e 'print LWP::UserAgent->new->post($ARGV[0], { query => $ARGV[1] })->content' "$url" "$query" | values)"
        else
            echo "LWP: not here"
        fi
    fi

    if has_module SPARQLWrapper; then
        got "SPARQLWrapper" "$("$python" - "$url" "$query" <<'END'
import sys
from SPARQLWrapper import JSON, SPARQLWrapper

asked = SPARQLWrapper(sys.argv[1])
asked.setQuery(sys.argv[2])
asked.setReturnFormat(JSON)
print(*sorted(row["friend"]["value"] for row in asked.query().convert()["results"]["bindings"]))
END
    )"
    fi

    if has_module rdflib; then
        got "rdflib, SPARQLStore" "$("$python" - "$url" "$query" <<'END'
import sys
from rdflib import Graph
from rdflib.plugins.stores.sparqlstore import SPARQLStore

graph = Graph(SPARQLStore(sys.argv[1], returnFormat="json"))
print(*sorted(str(row.friend) for row in graph.query(sys.argv[2])))
END
    )"
    fi

    # (Debian has Jena's commands as classes alone)
    if command -v rsparql >/dev/null 2>&1; then
        got "Jena, rsparql" "$(rsparql --service "$url" --results json "$query" | tr -d ' \n' | values)"
    elif "$here/jena.sh" 2>/dev/null; then
        got "Jena, rsparql" "$("$here/jena.sh" arq.rsparql --service "$url" --results json "$query" | tr -d ' \n' | values)"
    else
        echo "rsparql: not here"
    fi
}

echo "a member:"
ask_all http://127.0.0.1:8004/sparql
echo "a federation:"
ask_all http://127.0.0.1:8006/sparql
exit $failed
