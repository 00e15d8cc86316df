"""Tries examples/bridge.py: endpoints that are made here, each of which speaks otherwise than fedx does, are asked through it, and then fedx asks the two members of
examples/ through it, one over HTTPS and in XML, one by forms and compressed.

aiohttp and defusedxml are installed first where they aren't there and that may be done; where they can't be, nothing is tried, and a line says so. Ends with 1 where something isn't
as it has to be."""
import base64
import contextlib
import gzip
import http.client
import http.server
import json
import os
import shutil
import socket
import ssl
import subprocess
import sys
import tempfile
import threading
import time
import urllib.parse
import xml.sax.saxutils

TOP = os.path.join(os.path.dirname(os.path.abspath(__file__)), "..")
PACKAGES = ["python3-aiohttp", "python3-defusedxml"]
TABLE = {"head": {"vars": ["x"]}, "results": {"bindings": [{"x": {"type": "uri", "value": "http://e/a"}}, {"x": {"type": "literal", "value": "a\u00e4<&", "xml:lang": "de"}}, {}]}}
BLANK = {"head": {"vars": ["x"]}, "results": {"bindings": [{"x": {"type": "bnode", "value": "b 1"}}]}}
VIRTUOSO = {"head": {"link": [], "vars": ["__ask_retval"]}, "results": {"distinct": False, "ordered": True, "bindings": [{"__ask_retval": {"type": "typed-literal", "datatype": "http://www.w3.org/2001/XMLSchema#integer", "value": "1"}}]}}
TWICE = {"head": {"vars": ["x"]}, "results": {"bindings": [{"x": {"type": "literal", "value": "1"}}, {"x": {"type": "literal", "value": "1"}}]}}
BOMB = (
    '<!DOCTYPE s [<!ENTITY a "aaaaaaaaaa"><!ENTITY b "&a;&a;&a;&a;">]><sparql xmlns="http://www.w3.org/2005/sparql-results#"><head><variable name="x"/></head>'
    '<results><result><binding name="x"><literal>&b;</literal></binding></result></results></sparql>'
)


def has_packages(python):
    return subprocess.run([python, "-c", "import aiohttp, defusedxml"], stderr=subprocess.DEVNULL, check=False).returncode == 0


def python_of_bridge():
    """A Python that has what the bridge needs, or none."""
    pythons = [it for it in ("/usr/bin/python3", sys.executable) if os.path.exists(it)]
    for install in (False, True):
        if install and os.geteuid() == 0 and shutil.which("apt-get"):
            for words in (["install", "-y", *PACKAGES], ["update"], ["install", "-y", *PACKAGES]):
                # (without a network this fails, or waits: then nothing is tried)
                with contextlib.suppress(subprocess.TimeoutExpired):
                    done = subprocess.run(["apt-get", *words], stdout=subprocess.DEVNULL, stderr=subprocess.DEVNULL, timeout=100, check=False)
                    if words[0] == "install" and done.returncode == 0:
                        break
        for python in pythons:
            if has_packages(python):
                return python
    return None


def in_xml(said):
    """A results document in XML."""
    escaped, quoted = xml.sax.saxutils.escape, xml.sax.saxutils.quoteattr
    if "boolean" in said:
        inside = f"<head/><boolean>{str(said['boolean']).lower()}</boolean>"
    else:
        rows = []
        for row in said["results"]["bindings"]:
            terms = []
            for name, term in row.items():
                marks = "".join(f" {key}={quoted(term[key])}" for key in ("xml:lang", "datatype") if key in term)
                terms.append(f"<binding name={quoted(name)}><{term['type']}{marks}>{escaped(term['value'])}</{term['type']}></binding>")
            rows.append(f"<result>{''.join(terms)}</result>")
        columns = "".join(f"<variable name={quoted(it)}/>" for it in said["head"]["vars"])
        inside = f"<head>{columns}</head><results>{''.join(rows)}</results>"
    return f'<?xml version="1.0"?><sparql xmlns="http://www.w3.org/2005/sparql-results#">{inside}</sparql>'.encode()


class Endpoint(http.server.ThreadingHTTPServer):
    """An endpoint that answers by a function of its handler and of the query, which is None where none was sent as it takes them."""
    daemon_threads = True

    def __init__(self, reply, takes="text", certificate=None):
        super().__init__(("127.0.0.1", 0), Handler)
        self.reply, self.takes, self.seen, self.scheme = reply, takes, [], "http"
        if certificate:
            context = ssl.SSLContext(ssl.PROTOCOL_TLS_SERVER)
            context.load_cert_chain(certificate)
            self.socket, self.scheme = context.wrap_socket(self.socket, server_side=True), "https"
        threading.Thread(target=self.serve_forever, daemon=True).start()

    def handle_error(self, request, client_address):
        """(that a client doesn't trust a certificate is tried here)"""

    @property
    def address(self):
        return f"{self.scheme}://localhost:{self.server_address[1]}/sparql"


class Handler(http.server.BaseHTTPRequestHandler):
    protocol_version = "HTTP/1.1"

    def answered(self, query):
        self.server.seen.append((query, dict(self.headers)))
        self.server.reply(self, query)

    def do_GET(self):
        self.answered(urllib.parse.parse_qs(urllib.parse.urlsplit(self.path).query).get("query", [None])[0] if self.server.takes == "get" else None)

    def do_POST(self):
        body, kind = self.rfile.read(int(self.headers["Content-Length"])).decode(), self.headers["Content-Type"]
        form = urllib.parse.parse_qs(body).get("query", [None])[0]
        taken = {"text": body if kind == "application/sparql-query" else None, "form": form if kind == "application/x-www-form-urlencoded" else None}
        self.answered(taken.get(self.server.takes))

    def say(self, status, kind, body, **headers):
        self.send_response(status)
        for name, value in {"Content-Type": kind, "Content-Length": str(len(body)), **headers}.items():
            self.send_header(name.replace("_", "-"), value)
        self.end_headers()
        self.wfile.write(body)

    def log_message(self, *_):
        pass


# ---- what endpoints reply

def in_json(said, **headers):
    return lambda it, query: it.say(415, "text/plain", b"") if query is None else it.say(200, "application/sparql-results+json; charset=utf-8", json.dumps(said).encode(), **headers)


def as_xml(said):
    return lambda it, query: it.say(200, "application/sparql-results+xml", in_xml(said))


def zipped(it, query):
    it.say(200, "application/sparql-results+json", gzip.compress(json.dumps(TABLE).encode()), Content_Encoding="gzip")


def guarded(it, query):
    given = it.headers.get("Authorization")
    wanted = "Basic " + base64.b64encode("lab:s3cret ä".encode("latin-1")).decode()
    in_json(TABLE)(it, query) if given == wanted else it.say(401, "text/plain", b"no\n")


def keyed(it, query):
    in_json(TABLE)(it, query) if it.headers.get("X-Key") == "k3y" else it.say(403, "text/plain", b"no\n")


def slow(it, query):
    time.sleep(1.2)
    in_json(TABLE)(it, query)


def cut_off(it, query):
    it.send_response(200)
    it.send_header("Content-Type", "application/sparql-results+json")
    it.send_header("Content-Length", "1000")
    it.end_headers()
    it.wfile.write(b'{"head":')
    it.close_connection = True


def leads_to(address, status=307):
    return lambda it, query: it.say(status, "text/plain", b"", Location=address)


def forwarded(port, make):
    """What the member at a port answers, made into something else."""
    def reply(it, query):
        link = http.client.HTTPConnection("127.0.0.1", port)
        link.request("POST", "/sparql", (query or "").encode(), {"Content-Type": "application/sparql-query", "Connection": "close"})
        got = link.getresponse()
        body = got.read()
        make(it, json.loads(body)) if got.status == 200 else it.say(got.status, "text/plain", body)
    return reply


# ---- the bridge

def free_ports(many):
    with contextlib.ExitStack() as held:
        sockets = [held.enter_context(socket.socket()) for _ in range(many)]
        for it in sockets:
            it.bind(("127.0.0.1", 0))
        return [it.getsockname()[1] for it in sockets]


@contextlib.contextmanager
def bridge(python, room, sections):
    """A bridge to endpoints, each with its words, and the port of each."""
    ports = dict(zip(sections, free_ports(len(sections))))
    path = os.path.join(room, "bridge.ini")
    with open(path, "w", encoding="utf-8") as handle:
        for name, words in sections.items():
            handle.write(f"[{name}]\nport = {ports[name]}\n" + "".join(f"{key} = {value}\n" for key, value in words.items()))
    log = open(os.path.join(room, "bridge.log"), "w+", encoding="utf-8")
    running = subprocess.Popen([python, f"{TOP}/examples/bridge.py", path], stdout=log, env={**os.environ, "LAB": "s3cret ä", "KEY": "k3y"})
    try:
        for port in ports.values():
            for _ in range(100):
                with contextlib.suppress(OSError), socket.create_connection(("127.0.0.1", port)):
                    break
                if running.poll() is not None:
                    sys.exit("examples/bridge.py ended")
                time.sleep(0.1)
        yield ports, log
    finally:
        running.terminate()
        running.wait()
        log.close()


def ask(port, query):
    """The status, the media type and the body of what the bridge replies, asked as fedx asks."""
    link = http.client.HTTPConnection("127.0.0.1", port, timeout=20)
    link.request("POST", "/sparql", query.encode(), {"Content-Type": "application/sparql-query", "Accept": "application/sparql-results+json", "Accept-Encoding": "identity", "Connection": "close"})
    reply = link.getresponse()
    return reply.status, reply.headers.get_content_type(), reply.read()


class Checks:
    def __init__(self):
        self.done, self.failed = 0, 0

    def that(self, what, is_so, got=""):
        self.done += 1
        if not is_so:
            self.failed += 1
            print(f"bridge: {what}: {got}")


def try_replies(checks, python, room, certificate):
    """Each way in which an endpoint may speak otherwise."""
    secure = {"certificates": certificate}
    plain = Endpoint(in_json(TABLE))
    wire = {
        "tls": (Endpoint(in_json(TABLE), certificate=certificate), secure), "untrusted": (Endpoint(in_json(TABLE), certificate=certificate), {}), "xml": (Endpoint(as_xml(TABLE)), {}),
        "form": (Endpoint(in_json(TABLE), takes="form"), {"ask": "form"}), "get": (Endpoint(in_json(TABLE), takes="get"), {"ask": "get"}), "gzip": (Endpoint(zipped), {}),
        "password": (Endpoint(guarded), {"user": "lab", "secret": "LAB"}), "header": (Endpoint(keyed), {"header": "X-Key", "secret": "KEY"}), "moved": (Endpoint(leads_to(plain.address)), {"redirects": "follow", "header": "X-Key", "secret": "KEY"}),
    }
    refused = {
        "unmoved": (Endpoint(leads_to(plain.address)), {}, 307), "forbidden": (Endpoint(guarded), {}, 401), "broken": (Endpoint(lambda it, query: it.say(500, "text/plain", b"oh\n")), {}, 500),
        "slow": (Endpoint(slow), {"seconds": "0.5"}, 504), "cut": (Endpoint(cut_off), {}, 502), "long": (Endpoint(in_json(TABLE)), {"bytes": "50"}, 502), "blank": (Endpoint(in_json(BLANK)), {}, 502),
        "page": (Endpoint(lambda it, query: it.say(200, "text/html", b"<p>Welcome")), {}, 502), "bomb": (Endpoint(lambda it, query: it.say(200, "text/xml", BOMB.encode())), {}, 502), "odd": (Endpoint(in_json({"head": {}})), {}, 502),
        "no rows": (Endpoint(in_json({"head": {"vars": ["x"]}, "results": {"bindings": {}}})), {}, 502), "half true": (Endpoint(in_json({"head": {}, "boolean": "false"})), {}, 502),
        "other xml": (Endpoint(lambda it, query: it.say(200, "text/xml", b"<error>no</error>")), {}, 502), "deep": (Endpoint(lambda it, query: it.say(200, "application/json", b"[" * 100000)), {}, 502),
        "surrogate": (Endpoint(in_json({"head": {"vars": ["x"]}, "results": {"bindings": [{"x": {"type": "literal", "value": "\ud800"}}]}})), {}, 502), "nowhere": (Endpoint(leads_to("http://[::1")), {"redirects": "follow"}, 502),
        "circle": (Endpoint(leads_to("/sparql")), {"redirects": "follow"}, 502),
    }
    others = {"named": (Endpoint(in_json(BLANK)), {"blank": "http://lab.example/blank/"}), "virtuoso": (Endpoint(in_json(VIRTUOSO)), {}), "both": (Endpoint(slow), {}), "true": (Endpoint(as_xml({"boolean": True})), {}), "twice": (Endpoint(in_json(TWICE)), {})}
    sections = {name: {"endpoint": it[0].address, **it[1]} for name, it in {**wire, **refused, **others}.items()}
    with bridge(python, room, sections) as (ports, log):
        for name in wire:
            status, kind, body = ask(ports[name], "SELECT ?x WHERE { }")
            if name == "untrusted":
                checks.that("a certificate that isn't trusted", status == 502, (status, body))
            else:
                checks.that(name, (status, kind) == (200, "application/sparql-results+json") and json.loads(body) == TABLE, (status, kind, body))
        checks.that("a secret goes to no other host", all("X-Key" not in headers for _, headers in plain.seen) and plain.seen, plain.seen)
        for name, (_, _, wanted) in refused.items():
            status, kind, body = ask(ports[name], "SELECT ?x WHERE { }")
            checks.that(name, status == wanted, (status, kind, body))
        first, second = (json.loads(ask(ports["named"], "SELECT ?x WHERE { }")[2])["results"]["bindings"][0]["x"] for _ in range(2))
        checks.that("a blank node has an IRI of its reply", first["type"] == "uri" and first["value"].startswith("http://lab.example/blank/") and first != second, (first, second))
        for name in ("virtuoso", "true"):
            checks.that(f"an ASK, {name}", json.loads(ask(ports[name], "ASK { }")[2]) == {"head": {}, "boolean": True})
        checks.that("an ASK with two rows", ask(ports["twice"], "ASK { }")[0] == 502)
        start = time.monotonic()
        threads = [threading.Thread(target=ask, args=(ports["both"], "SELECT ?x WHERE { }")) for _ in range(4)]
        for it in threads:
            it.start()
        for it in threads:
            it.join()
        checks.that("four requests at once", time.monotonic() - start < 3, time.monotonic() - start)
        log.seek(0)
        lines = log.read()
        checks.that("a line for each request", sum(": 200, " in it for it in lines.splitlines()) == len(wire) - 1 + 2 + 2 + 4, lines[-300:])
        checks.that("no secret in the log", "s3cret" not in lines and "k3y" not in lines)


def try_federation(checks, python, room, certificate):
    """fedx asks the two members of examples/ through the bridge, and gives what it gives without."""
    fedx, examples = f"{TOP}/fedx", f"{TOP}/examples"
    lab, library = free_ports(2)
    members = [subprocess.Popen([fedx, "member", f"{examples}/{graph}.nt", f"127.0.0.1:{port}"], stdout=subprocess.DEVNULL, stderr=subprocess.DEVNULL) for graph, port in (("lab", lab), ("library", library))]
    try:
        for port in (lab, library):
            for _ in range(100):
                with contextlib.suppress(OSError), socket.create_connection(("127.0.0.1", port)):
                    break
                time.sleep(0.1)
        in_tls = Endpoint(forwarded(lab, lambda it, said: it.say(200, "application/sparql-results+xml", in_xml(said))), takes="get", certificate=certificate)
        by_form = Endpoint(forwarded(library, lambda it, said: it.say(200, "application/json", gzip.compress(json.dumps(said).encode()), Content_Encoding="gzip")), takes="form")
        sections = {"LAB": {"endpoint": in_tls.address, "ask": "get", "certificates": certificate}, "LIBRARY": {"endpoint": by_form.address, "ask": "form"}}
        with bridge(python, room, sections) as (ports, _):
            results = {}
            for way, addresses in ("straight", (lab, library)), ("through the bridge", (ports["LAB"], ports["LIBRARY"])):
                registry = os.path.join(room, "registry.txt")
                with open(registry, "w", encoding="utf-8") as handle:
                    handle.write("".join(f"{name} http://127.0.0.1:{port}/sparql\n" for name, port in zip(("LAB", "LIBRARY"), addresses)))
                for query in ("across", "guests", "plan", "salts"):
                    ran = subprocess.run([fedx, "query", registry, f"{examples}/{query}.rq"], capture_output=True, check=False)
                    results.setdefault(query, {})[way] = (ran.returncode, ran.stdout, ran.stderr)
            for query, ways in results.items():
                checks.that(f"{query}.rq through the bridge", ways["straight"] == ways["through the bridge"] and ways["straight"][0] == 0, ways)
    finally:
        for it in members:
            it.terminate()
            it.wait()


def main():
    python = python_of_bridge()
    if python is None:
        print(f"examples/bridge.py is NOT TRIED: {' and '.join(PACKAGES)} aren't there and can't be installed")
        return 0
    checks = Checks()
    with tempfile.TemporaryDirectory() as room:
        certificate = os.path.join(room, "own.pem")
        key = ["-newkey", "rsa:2048", "-nodes", "-keyout", certificate + ".key", "-out", certificate]
        subprocess.run(["openssl", "req", "-x509", *key, "-days", "2", "-subj", "/CN=localhost", "-addext", "subjectAltName=DNS:localhost"], stderr=subprocess.DEVNULL, check=True)
        with open(certificate, "a", encoding="utf-8") as whole, open(certificate + ".key", encoding="utf-8") as part:
            whole.write(part.read())
        try_replies(checks, python, room, certificate)
        try_federation(checks, python, room, certificate)
    print(f"examples/bridge.py: {checks.done - checks.failed} of {checks.done} as they have to be")
    return 1 if checks.failed else 0


if __name__ == "__main__":
    sys.exit(main())
