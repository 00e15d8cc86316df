#!/usr/bin/env python3
"""Serves a file of N-Triples with rdflib at http://127.0.0.1:PORT/sparql: examples/rdflib_endpoint.py GRAPH PORT

It answers what fedx asks an endpoint, a query that is posted as its text, in JSON. A query that rdflib can't read or answer is status 400."""
import http.server
import sys

import rdflib

# A literal keeps the text that it was written with: "01" doesn't become "1".
rdflib.NORMALIZE_LITERALS = False


class Endpoint(http.server.BaseHTTPRequestHandler):
    protocol_version = "HTTP/1.1"

    def do_POST(self):
        query = self.rfile.read(int(self.headers["Content-Length"])).decode()
        try:
            status, kind, body = 200, "application/sparql-results+json", graph.query(query).serialize(format="json")
        except Exception as fault:
            status, kind, body = 400, "text/plain", f"{type(fault).__name__}: {fault}\n".encode()
        self.send_response(status)
        self.send_header("Content-Type", kind)
        self.send_header("Content-Length", str(len(body)))
        self.send_header("Connection", "close")
        self.end_headers()
        self.wfile.write(body)

    def log_message(self, *_):
        pass


if len(sys.argv) != 3:
    sys.exit("usage: examples/rdflib_endpoint.py GRAPH PORT")
graph = rdflib.Graph().parse(sys.argv[1], format="nt")
# (one connection after the other, since rdflib reads one query at a time)
http.server.HTTPServer(("127.0.0.1", int(sys.argv[2])), Endpoint).serve_forever()
