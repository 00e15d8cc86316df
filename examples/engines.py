#!/usr/bin/env python3
"""Asks a federation of four different engines: examples/engines.py [GRAPH QUERY..]

The triples of a file are spread over a member of fedx, rdflib, Virtuoso and Perl's RDF::Endpoint, one in ten of them at two engines. The last two are asked through bridge.py, RDF::Endpoint over
HTTPS with nginx before it. For each query `fedx query` has to write the document that `fedx local` writes over the whole file. Where nothing is given it is staff.nt with four queries.

It says what isn't installed, and then tries nothing. Ends with 1 where a document differs or an engine doesn't start."""
import contextlib
import os
import shutil
import signal
import socket
import subprocess
import sys
import tempfile
import time
import urllib.parse

HERE = os.path.dirname(os.path.abspath(__file__))
FEDX = f"{HERE}/../fedx"
PYTHON = "/usr/bin/python3"
# The ports at which the engines are asked by fedx, in the order of the registry, and those behind them.
MEMBER, RDFLIB, BRIDGED_VIRTUOSO, BRIDGED_PERL = range(8301, 8305)
VIRTUOSO, VIRTUOSO_SQL, PERL, FRONT = range(8305, 8309)
# Virtuoso answers over all of its graphs, its own among them, where none is named.
GRAPH = "http://example.org/graph"
QUERIES = ["mails", "oldest", "lab", "young"]
PACKAGES = {
    "python3-rdflib": lambda: imports("rdflib"),
    "python3-aiohttp": lambda: imports("aiohttp"),
    "python3-defusedxml": lambda: imports("defusedxml"),
    "virtuoso-opensource-7": lambda: shutil.which("virtuoso-t") and shutil.which("isql-vt"),
    "librdf-endpoint-perl": lambda: shutil.which("plackup") and not run(["perl", "-MRDF::Endpoint", "-e", "1"]).returncode,
    "nginx-light": lambda: nginx(),
    "openssl": lambda: shutil.which("openssl"),
}
VIRTUOSO_INI = """[Database]
DatabaseFile = {room}/virtuoso.db
ErrorLogFile = {room}/virtuoso.log
LockFile = {room}/virtuoso.lck
TransactionFile = {room}/virtuoso.trx
xa_persistent_file = {room}/virtuoso.pxa
[TempDatabase]
DatabaseFile = {room}/virtuoso-temp.db
TransactionFile = {room}/virtuoso-temp.trx
[Parameters]
ServerPort = 127.0.0.1:{sql}
ServerThreads = 10
NumberOfBuffers = 20000
DirsAllowed = {room}
[HTTPServer]
ServerPort = 127.0.0.1:{port}
ServerThreads = 8
[SPARQL]
ResultSetMaxRows = 1000000
"""
ENDPOINT_PSGI = """use RDF::Trine;
use RDF::Endpoint;
use Plack::Request;
my $model = RDF::Trine::Model->new(RDF::Trine::Store::Memory->new());
RDF::Trine::Parser::NTriples->new->parse_file_into_model('http://example.org/', '{file}', $model);
my $endpoint = RDF::Endpoint->new($model, {{ endpoint => {{ endpoint_path => '/sparql' }} }});
sub {{ $endpoint->run(Plack::Request->new(shift))->finalize }};
"""
FRONT_CONF = """daemon off;
pid {room}/nginx.pid;
error_log stderr error;
events {{}}
http {{
    access_log off;
    client_body_temp_path {room}/body;
    proxy_temp_path {room}/proxied;
    fastcgi_temp_path {room}/fast;
    uwsgi_temp_path {room}/uwsgi;
    scgi_temp_path {room}/scgi;
    server {{
        listen 127.0.0.1:{front} ssl;
        ssl_certificate {room}/own.pem;
        ssl_certificate_key {room}/own.key;
        client_max_body_size 64m;
        location / {{ proxy_pass http://127.0.0.1:{perl}; }}
    }}
}}
"""
BRIDGE_INI = """[VIRTUOSO]
port = {virtuoso}
endpoint = http://127.0.0.1:{behind}/sparql?default-graph-uri={graph}
ask = form

[PERL]
port = {perl}
endpoint = https://localhost:{front}/sparql
ask = form
certificates = {room}/own.pem
"""


def run(words, **how):
    return subprocess.run(words, stdout=subprocess.PIPE, stderr=subprocess.PIPE, text=True, check=False, **how)


def imports(name):
    return os.path.exists(PYTHON) and run([PYTHON, "-c", f"import {name}"]).returncode == 0


def nginx():
    return shutil.which("nginx", path=f"{os.environ['PATH']}:/usr/sbin")


def spread(triples):
    """What each of the four engines holds of the triples."""
    parts = [[], [], [], []]
    for number, triple in enumerate(triples):
        parts[number % 4].append(triple)
        if number % 10 == 0:
            parts[(number + 1) % 4].append(triple)
    return parts


def write(path, text):
    with open(path, "w", encoding="utf-8") as file:
        file.write(text)


def wait_for(port, name, process):
    """Waits until something listens at a port."""
    for _ in range(600):
        with contextlib.suppress(OSError):
            socket.create_connection(("127.0.0.1", port)).close()
            return
        if process.poll() is not None:
            break
        time.sleep(0.1)
    sys.exit(f"engines.py: {name} doesn't start at 127.0.0.1:{port}")


def load_virtuoso(path, graph):
    """Fills a graph anew with what Virtuoso takes over its own protocol, which may be there a little later."""
    load = f"SPARQL CLEAR GRAPH <{graph}>;\nDB.DBA.TTLP(file_to_string_output('{path}'), '', '{graph}', 0);\ncheckpoint;\n"
    for _ in range(50):
        done = run(["isql-vt", f"127.0.0.1:{VIRTUOSO_SQL}", "dba", "dba", "ERRORS=STDOUT"], input=load)
        if done.returncode == 0 and "*** Error" not in done.stdout:
            return
        time.sleep(0.2)
    sys.exit(f"engines.py: Virtuoso doesn't take the triples: {done.stdout}{done.stderr}")


class Engines:
    """The engines, each a process of its own."""

    def __init__(self, room, parts):
        self.room, self.running = room, []
        for name, part in zip(("member", "rdflib", "virtuoso", "perl"), parts):
            write(f"{room}/{name}.nt", "".join(part))

    def start(self, name, port, words):
        with open(f"{self.room}/{name}.out", "w", encoding="utf-8") as out:
            # (Virtuoso leaves files where it is started)
            process = subprocess.Popen(words, stdin=subprocess.DEVNULL, stdout=out, stderr=out, start_new_session=True, cwd=self.room)
        self.running.append(process)
        wait_for(port, name, process)

    def start_all(self):
        room = self.room
        self.start("a member of fedx", MEMBER, [FEDX, "member", f"{room}/member.nt", f"127.0.0.1:{MEMBER}"])
        self.start("rdflib", RDFLIB, [PYTHON, f"{HERE}/rdflib_endpoint.py", f"{room}/rdflib.nt", str(RDFLIB)])
        write(f"{room}/virtuoso.ini", VIRTUOSO_INI.format(room=room, sql=VIRTUOSO_SQL, port=VIRTUOSO))
        self.start("Virtuoso", VIRTUOSO, ["virtuoso-t", "+configfile", f"{room}/virtuoso.ini", "+foreground"])
        load_virtuoso(f"{room}/virtuoso.nt", GRAPH)
        write(f"{room}/endpoint.psgi", ENDPOINT_PSGI.format(file=f"{room}/perl.nt"))
        self.start("RDF::Endpoint", PERL, ["plackup", "--host", "127.0.0.1", "--port", str(PERL), "--env", "deployment", f"{room}/endpoint.psgi"])
        certify = ["openssl", "req", "-x509", "-newkey", "rsa:2048", "-nodes", "-keyout", f"{room}/own.key", "-out", f"{room}/own.pem", "-days", "2", "-subj", "/CN=localhost"]
        run([*certify, "-addext", "subjectAltName=DNS:localhost"])
        write(f"{room}/front.conf", FRONT_CONF.format(room=room, front=FRONT, perl=PERL))
        self.start("nginx", FRONT, [nginx(), "-e", "stderr", "-c", f"{room}/front.conf"])
        write(f"{room}/bridge.ini", BRIDGE_INI.format(room=room, virtuoso=BRIDGED_VIRTUOSO, behind=VIRTUOSO, graph=urllib.parse.quote(GRAPH, safe=""), perl=BRIDGED_PERL, front=FRONT))
        self.start("the bridge", BRIDGED_VIRTUOSO, [PYTHON, f"{HERE}/bridge.py", f"{room}/bridge.ini"])
        ports = (("MEMBER", MEMBER, "sparql"), ("RDFLIB", RDFLIB, "sparql"), ("VIRTUOSO", BRIDGED_VIRTUOSO, ""), ("PERL", BRIDGED_PERL, ""))
        write(f"{room}/registry.txt", "".join(f"{name} http://127.0.0.1:{port}/{path}\n" for name, port, path in ports))

    def stop(self):
        # (one that ended has no number any more)
        running = [it for it in self.running if it.poll() is None]
        for process in running:
            os.killpg(process.pid, signal.SIGTERM)
        for process in running:
            with contextlib.suppress(subprocess.TimeoutExpired):
                process.wait(timeout=20)


def compare(engines, graph, query):
    """Whether the four engines together give the document of the whole file."""
    began = time.monotonic()
    asked, whole = run([FEDX, "query", f"{engines.room}/registry.txt", query]), run([FEDX, "local", graph, query])
    seconds = time.monotonic() - began
    is_same = asked.returncode == 0 and whole.returncode == 0 and asked.stdout == whole.stdout
    said = "as `fedx local` answers" if is_same else f"NOT as `fedx local` answers: status {asked.returncode} {asked.stderr.strip()}"
    print(f"four engines, {os.path.basename(query)}: {said}, {seconds:.1f} seconds", flush=True)
    return is_same


def main(words):
    if len(words) == 1:
        sys.exit("usage: examples/engines.py [GRAPH QUERY..]")
    graph, queries = (words[0], words[1:]) if words else (f"{HERE}/staff.nt", [f"{HERE}/{name}.rq" for name in QUERIES])
    if lacking := [name for name, is_there in PACKAGES.items() if not is_there()]:
        print(f"four engines in one federation: not here, without {' '.join(lacking)}")
        return 0
    # (a program that isn't built yet is made first, where that can be seen)
    if (status := subprocess.run([f"{HERE}/../tools/choose"], stdin=subprocess.DEVNULL, stdout=subprocess.DEVNULL, check=False).returncode):
        return status
    with open(graph, encoding="utf-8", newline="") as file:
        parts = spread([line for line in file if line.strip() and not line.lstrip().startswith("#")])
    with tempfile.TemporaryDirectory() as room:
        # (Perl's and nginx's workers are run as nobody where this is root)
        os.chmod(room, 0o755)
        engines = Engines(room, parts)
        try:
            engines.start_all()
            return 0 if all([compare(engines, graph, query) for query in queries]) else 1
        finally:
            engines.stop()


if __name__ == "__main__":
    signal.signal(signal.SIGTERM, signal.default_int_handler)
    try:
        sys.exit(main(sys.argv[1:]))
    except KeyboardInterrupt:
        sys.exit(130)
