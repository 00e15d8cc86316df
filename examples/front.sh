#!/bin/sh
# Puts nginx (front.conf) before two members of people.nt, where that is installed, and asks through it while 20 peers send nothing and 5 take nothing of their replies: by HTTP and by
# HTTPS. Then it asks one member, straight, behind one silent peer, for comparison. Ends with 1 where the front's answer isn't the member's, or takes more than 2 seconds.
set -u
here=$(cd "$(dirname "$0")" && pwd)
fedx=$here/../fedx

front=$(command -v nginx || ls /usr/sbin/nginx 2>/dev/null) || { echo "nginx before two members: not here"; exit 0; }

# (a program that isn't built yet is made first, where that can be seen)
"$here/../tools/choose" </dev/null >/dev/null || exit

room=$(mktemp -d)
one='' other='' before=''
trap 'kill $one $other $before 2>/dev/null; wait 2>/dev/null; rm -r "$room"' EXIT
openssl req -x509 -newkey rsa:2048 -nodes -keyout "$room/own.key" -out "$room/own.pem" -days 2 -subj /CN=localhost -addext subjectAltName=DNS:localhost 2>/dev/null || exit
sed "s|ROOM|$room|" "$here/front.conf" >"$room/front.conf"

"$fedx" member "$here/people.nt" 127.0.0.1:8001 2>/dev/null &
one=$!
"$fedx" member "$here/people.nt" 127.0.0.1:8002 2>/dev/null &
other=$!
"$front" -e stderr -c "$room/front.conf" &
before=$!

python3 - "$here/knows.rq" "$room/own.pem" <<'END'
import http.client, socket, ssl, sys, time

query = open(sys.argv[1], "rb").read()


def answer(port, certificate=None):
    """The status and the document of the query, and the seconds that they took."""
    start = time.monotonic()
    if certificate:
        link = http.client.HTTPSConnection("localhost", port, timeout=60, context=ssl.create_default_context(cafile=certificate))
    else:
        link = http.client.HTTPConnection("127.0.0.1", port, timeout=60)
    link.request("POST", "/sparql", query, {"Content-Type": "application/sparql-query", "Connection": "close"})
    reply = link.getresponse()
    return reply.status, reply.read(), time.monotonic() - start


for port in (8001, 8002, 8003):
    for _ in range(100):
        try:
            socket.create_connection(("127.0.0.1", port)).close()
            break
        except OSError:
            time.sleep(0.1)
wanted = answer(8001)[:2]
failed = wanted[0] != 200

# Peers that begin a request and send no more of it, and some that ask and take nothing.
silent = [socket.create_connection(("127.0.0.1", 8003)) for _ in range(20)]
for it in silent[5:]:
    it.sendall(b"POST /sparql HTTP/1.1\r\nHost: x\r\nContent-Type: application/sparql-query\r\nContent-Length: 100\r\n\r\nSEL")
for it in silent[:5]:
    it.sendall(b"GET /sparql?query=SELECT%20*%20%7B%20%3Fs%20%3Fp%20%3Fo%20%7D HTTP/1.1\r\nHost: x\r\n\r\n")

for what, port, certificate in (("HTTP", 8003, None), ("HTTPS", 8443, sys.argv[2])):
    status, document, took = answer(port, certificate)
    right = (status, document) == wanted and took < 2
    failed |= not right
    print(f"nginx before two members, {what}, 20 silent peers: {'the answer' if right else f'status {status}, {document[:80]}'}, within {2 if right else round(took, 1)} seconds")

one = socket.create_connection(("127.0.0.1", 8001))
one.sendall(b"POST /sparql HTTP/1.1\r\n")
status, document, took = answer(8001)
print(f"a member alone, one silent peer: {'the answer' if (status, document) == wanted else status}, behind {took:.0f} seconds")
sys.exit(failed)
END
