#!/usr/bin/env python3
"""Stands between fedx and endpoints that speak otherwise: examples/bridge.py CONFIGURATION

For each endpoint of the configuration it listens at a port of 127.0.0.1, takes the queries that fedx sends there, asks the real endpoint, over HTTPS too, and gives back the JSON that
fedx reads. docs/ENDPOINTS.md has the configuration's words, and what is made of each reply. A line a request goes to standard output."""
import asyncio
import configparser
import dataclasses
import io
import itertools
import json
import os
import ssl
import sys
import time
import urllib.parse

try:
    import aiohttp
    from aiohttp import web
    from defusedxml.ElementTree import ParseError, fromstring
    from defusedxml import DefusedXmlException
except ImportError:
    sys.exit("examples/bridge.py needs aiohttp and defusedxml: apt-get install python3-aiohttp python3-defusedxml, and run it with /usr/bin/python3")

JSON_TYPE, XML_TYPE, QUERY_TYPE = "application/sparql-results+json", "application/sparql-results+xml", "application/sparql-query"
JSON_TYPES, XML_TYPES = {JSON_TYPE, "application/json"}, {XML_TYPE, "application/xml", "text/xml"}
XML_NAME = "{http://www.w3.org/2005/sparql-results#}"
XML_LANG = "{http://www.w3.org/XML/1998/namespace}lang"
MOST_TEXT = 67_108_864
Term = dict[str, str]


class Refused(Exception):
    """No reply that fedx could read can be made of what the endpoint gave."""


@dataclasses.dataclass
class Bridged:
    """An endpoint of the configuration."""
    name: str
    port: int
    endpoint: str
    ask: str
    redirects: str
    blank: str
    seconds: float
    most: int
    header: tuple[str, str] | None
    user: aiohttp.BasicAuth | None
    trust: ssl.SSLContext


def secret(variable: str) -> str:
    """What a variable of the environment holds: secrets are no words of a command line, where each user of the machine reads them."""
    if variable not in os.environ:
        sys.exit(f"examples/bridge.py: the variable {variable} isn't set")
    if not os.environ[variable].isprintable():
        sys.exit(f"examples/bridge.py: the variable {variable} has a line's end or another sign that no field of a request may have")
    return os.environ[variable]


def bridged(name: str, words: configparser.SectionProxy) -> Bridged:
    known = {"port", "endpoint", "ask", "redirects", "blank", "seconds", "bytes", "header", "secret", "user", "certificates"}
    if odd := set(words) - known:
        sys.exit(f"examples/bridge.py: [{name}] has an unknown word, {min(odd)}")
    for word, choices in ("ask", ("text", "form", "get")), ("redirects", ("refuse", "follow")):
        if words.get(word, choices[0]) not in choices:
            sys.exit(f"examples/bridge.py: [{name}] {word} is one of {', '.join(choices)}")
    if missing := {"port", "endpoint"} - set(words):
        sys.exit(f"examples/bridge.py: [{name}] has no {min(missing)}")
    if len({"header", "user"} & set(words)) != len({"secret"} & set(words)):
        sys.exit(f"examples/bridge.py: [{name}] needs one of header and user beside secret, the name of a variable of the environment, or none of the three")
    if urllib.parse.urlsplit(words["endpoint"]).username is not None:
        sys.exit(f"examples/bridge.py: [{name}] has a user in its endpoint, where anyone reads it: user and secret say it")
    if words.get("blank", "refuse") != "refuse" and not urllib.parse.urlsplit(words["blank"]).scheme:
        sys.exit(f"examples/bridge.py: [{name}] blank is refuse, or what an IRI begins with")
    given = secret(words["secret"]) if "secret" in words else ""
    trust = ssl.create_default_context(cafile=words.get("certificates"))
    return Bridged(name, words.getint("port"), words["endpoint"], words.get("ask", "text"), words.get("redirects", "refuse"), words.get("blank", "refuse"),
                   words.getfloat("seconds", 300), words.getint("bytes", MOST_TEXT), (words["header"], given) if "header" in words else None,
                   aiohttp.BasicAuth(words["user"], given) if "user" in words else None, trust)


# ---- what a reply says

TRUTHS = {"1": True, "true": True, "0": False, "false": False}


@dataclasses.dataclass
class Table:
    """The columns and the rows of a SELECT, or the truth of an ASK."""
    columns: list[str]
    rows: list[dict[str, Term]]
    truth: bool | None = None


def json_term(given: Term) -> Term:
    kind = {"typed-literal": "literal"}.get(given["type"], given["type"])
    if kind not in ("uri", "literal", "bnode") or not isinstance(given["value"], str):
        raise Refused(f"a term of the type {kind}")
    return {"type": kind, "value": given["value"], **{key: given[key] for key in ("datatype", "xml:lang") if key in given}}


def from_json(body: bytes) -> Table:
    try:
        said = json.loads(body)
        if "boolean" in said:
            if not isinstance(said["boolean"], bool):
                raise ValueError("its boolean is none")
            return Table([], [], said["boolean"])
        columns, rows = said["head"]["vars"], said["results"]["bindings"]
        if not isinstance(columns, list) or not isinstance(rows, list):
            raise ValueError("its columns or its rows are no list")
        return Table(columns, [{name: json_term(it) for name, it in row.items()} for row in rows])
    except (ValueError, KeyError, TypeError, AttributeError, RecursionError) as fault:
        raise Refused(f"the body is no results document in JSON: {fault}") from fault


def xml_term(binding) -> Term:
    (given,) = binding
    kind, value = given.tag.removeprefix(XML_NAME), given.text or ""
    if kind not in ("uri", "literal", "bnode"):
        raise Refused(f"a term of the type {kind}")
    marks = {"datatype": given.get("datatype"), "xml:lang": given.get(XML_LANG)}
    return {"type": kind, "value": value, **{key: it for key, it in marks.items() if it is not None}}


def from_xml(body: bytes) -> Table:
    try:
        root = fromstring(body, forbid_dtd=True)
        if root.tag != f"{XML_NAME}sparql":
            raise ValueError(f"it is a document of {root.tag}")
        if (truth := root.find(f"{XML_NAME}boolean")) is not None:
            return Table([], [], TRUTHS[(truth.text or "").strip()])
        if root.find(f"{XML_NAME}results") is None:
            raise ValueError("it has neither results nor a boolean")
        columns = [it.attrib["name"] for it in root.findall(f"{XML_NAME}head/{XML_NAME}variable")]
        rows = root.findall(f"{XML_NAME}results/{XML_NAME}result")
        return Table(columns, [{it.attrib["name"]: xml_term(it) for it in row.findall(f"{XML_NAME}binding")} for row in rows])
    except (ParseError, DefusedXmlException, KeyError, ValueError) as fault:
        raise Refused(f"the body is no results document in XML: {fault}") from fault


def truth_of(table: Table) -> bool:
    """The truth that an endpoint tells by a table: no row is false, and else one row has one value."""
    if table.truth is not None or not table.rows:
        return bool(table.truth)
    told = [it["value"] for row in table.rows for it in row.values()]
    if len(told) != 1 or told[0] not in TRUTHS:
        raise Refused("an ASK was answered by a table that tells no truth")
    return TRUTHS[told[0]]


def named(table: Table, prefix: str, reply: str) -> None:
    """Gives each blank node of a reply an IRI of this reply's own: its name means nothing in any other."""
    for term in itertools.chain.from_iterable(row.values() for row in table.rows):
        if term["type"] == "bnode":
            if prefix == "refuse":
                raise Refused("the reply has a blank node")
            term.update(type="uri", value=f"{prefix}{reply}/{urllib.parse.quote(term['value'], safe='')}")


def document(query: str, kind: str, body: bytes, prefix: str, reply: str) -> bytes:
    """The results document in JSON of a reply to a query."""
    if kind in JSON_TYPES:
        table = from_json(body)
    elif kind in XML_TYPES:
        table = from_xml(body)
    else:
        raise Refused(f"a reply of the type {kind}")
    if query.split(None, 1)[:1] == ["ASK"]:
        return json.dumps({"head": {}, "boolean": truth_of(table)}).encode()
    if table.truth is not None:
        raise Refused("a SELECT was answered by a truth")
    named(table, prefix, reply)
    return json.dumps({"head": {"vars": table.columns}, "results": {"bindings": table.rows}}, ensure_ascii=False).encode()


# ---- asking

async def whole(reply: aiohttp.ClientResponse, most: int) -> bytes:
    """The body, without its compression, if it isn't too long."""
    held = io.BytesIO()
    async for piece in reply.content.iter_chunked(1 << 16):
        if held.tell() + len(piece) > most:
            raise Refused(f"the reply has more than {most} bytes")
        held.write(piece)
    return held.getvalue()


async def asked(session: aiohttp.ClientSession, it: Bridged, query: str) -> tuple[int, str, bytes]:
    """The status, the media type and the body of the endpoint's reply. A secret goes to the endpoint's own host alone."""
    address = it.endpoint
    for _ in range(6):
        own = urllib.parse.urlsplit(address)[:2] == urllib.parse.urlsplit(it.endpoint)[:2]
        headers = {"Accept": f"{JSON_TYPE}, {XML_TYPE};q=0.5", "User-Agent": "fedx-bridge"}
        if it.header and own:
            headers[it.header[0]] = it.header[1]
        how = {"headers": headers, "auth": it.user if own else None, "ssl": it.trust, "allow_redirects": False}
        if it.ask == "get":
            # (an address that was led to mostly has the query already)
            has_query = "query" in urllib.parse.parse_qs(urllib.parse.urlsplit(address).query)
            sent = session.get(address, params=None if has_query else {"query": query}, **how)
        elif it.ask == "form":
            sent = session.post(address, data={"query": query}, **how)
        else:
            sent = session.post(address, data=query.encode(), **{**how, "headers": {**headers, "Content-Type": QUERY_TYPE}})
        async with sent as reply:
            if reply.status in (301, 302, 303, 307, 308) and it.redirects == "follow" and "Location" in reply.headers:
                address = urllib.parse.urljoin(address, reply.headers["Location"])
                if not address.startswith("https:" if it.endpoint.startswith("https:") else ("http:", "https:")):
                    raise Refused(f"it leads to {address}")
                continue
            return reply.status, reply.content_type, await whole(reply, it.most)
    raise Refused("it leads on and on")


def in_a_line(why: object) -> str:
    """The beginning of a reason, without signs that would end the line or move the cursor: some of it is the endpoint's own words."""
    return "".join(it if it.isprintable() else "?" for it in str(why)[:300])


def answering(session: aiohttp.ClientSession, it: Bridged):
    counted = itertools.count(1)

    async def answer(request: web.Request) -> web.Response:
        start, number = time.monotonic(), next(counted)
        try:
            # (a page in a browser can post other types without being asked first)
            if request.content_type != QUERY_TYPE:
                raise Refused(f"a request of the type {request.content_type}, and not {QUERY_TYPE}")
            query = (await request.read()).decode()
            status, kind, body = await asyncio.wait_for(asked(session, it, query), it.seconds)
            if status == 200:
                # (a long document is made beside the other requests)
                body = await asyncio.to_thread(document, query, kind, body, it.blank, f"{os.getpid()}-{number}")
                kind = JSON_TYPE
            why = ""
        except asyncio.TimeoutError:
            status, kind, body, why = 504, "text/plain", b"no reply in time\n", " no reply in time"
        except (aiohttp.ClientError, OSError) as fault:
            status, kind, body, why = 502, "text/plain", b"no reply\n", in_a_line(f" {type(fault).__name__}: {fault}")
        except (Refused, ValueError) as fault:
            # (a text that isn't UTF-8, and an address that can't be one, are such a ValueError)
            why = in_a_line(f" {fault}")
            status, kind, body = 502, "text/plain", f"{why.strip()}\n".encode()
        print(f"{it.name} {number}: {status}, {len(body)} bytes, {time.monotonic() - start:.3f} seconds{why}", flush=True)
        return web.Response(status=status, body=body, content_type=kind)

    return answer


async def serve(all_bridged: list[Bridged]) -> None:
    session = aiohttp.ClientSession(timeout=aiohttp.ClientTimeout(total=None), cookie_jar=aiohttp.DummyCookieJar())
    runners = []
    try:
        for it in all_bridged:
            app = web.Application(client_max_size=MOST_TEXT)
            app.router.add_post("/{path:.*}", answering(session, it))
            runner = web.AppRunner(app, access_log=None)
            runners.append(runner)
            await runner.setup()
            await web.TCPSite(runner, "127.0.0.1", it.port).start()
            print(f"{it.name}: http://127.0.0.1:{it.port}/ for {it.endpoint}", flush=True)
        await asyncio.Event().wait()
    finally:
        for runner in runners:
            await runner.cleanup()
        await session.close()


def main(words: list[str]) -> None:
    if len(words) != 1:
        sys.exit("usage: examples/bridge.py CONFIGURATION")
    read = configparser.ConfigParser(interpolation=None)
    try:
        with open(words[0], encoding="utf-8") as handle:
            read.read_file(handle)
        all_bridged = [bridged(name, read[name]) for name in read.sections()]
    except (OSError, ValueError, configparser.Error) as fault:
        sys.exit(f"examples/bridge.py: {fault}")
    try:
        asyncio.run(serve(all_bridged))
    except OSError as fault:
        sys.exit(f"examples/bridge.py: {fault}")
    except KeyboardInterrupt:
        pass


if __name__ == "__main__":
    main(sys.argv[1:])
