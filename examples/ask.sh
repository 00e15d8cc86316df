#!/bin/sh
# Starts a member on this machine, and asks it with curl in the three forms of the SPARQL 1.1 Protocol's query operation, and in
# ways that it refuses. The member's own line on each connection is printed at the end.
set -u
here=$(cd "$(dirname "$0")" && pwd)
address=127.0.0.1:8003
url=http://$address/sparql
# (a program that isn't built yet is made first, where that can be seen)
"$here/../tools/choose" </dev/null >/dev/null || exit
lines=$(mktemp)
trap 'kill $member 2>/dev/null; rm -f "$lines"' EXIT
"$here/../fedx" member "$here/people.nt" $address 7 2>"$lines" &
member=$!

# The body, and behind it the status; a member that isn't ready yet refuses connections.
ask() {
    curl --silent --retry 20 --retry-connrefused --retry-delay 1 --write-out ' [%{http_code}]\n' "$@"
}

query='ASK { <http://example.org/ann> <http://xmlns.com/foaf/0.1/knows> ?friend }'
echo "GET"
ask --get --data-urlencode "query=$query" "$url"
echo "POST of the query"
ask --header 'Content-Type: application/sparql-query' --data "$query" "$url"
echo "POST of a form"
ask --data-urlencode "query=$query" "$url"
echo "refused"
ask --get --data-urlencode "query=$query" --data-urlencode "default-graph-uri=http://example.org/g" "$url"
ask --get --data-urlencode "query=SELECT * WHERE { ?s ?p }" "$url"
ask --header 'Content-Type: text/turtle' --data "$query" "$url"
ask --request PUT --data "$query" "$url"
wait $member
cat "$lines"
