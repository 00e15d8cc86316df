#!/bin/sh
# Runs a class with Debian's Jena beside it: examples/jena.sh CLASS|FILE.java [WORDS..]
#
# It takes Debian's libapache-jena-java and a JDK. Without words it ends with 1 where they aren't here. An endpoint over a file of N-Triples: examples/jena.sh examples/java/JenaEndpoint.java GRAPH PORT
set -u
jars=/usr/share/java

[ -f $jars/jena-arq.jar ] && command -v javac >/dev/null && command -v jar >/dev/null || { echo "jena.sh: not here, without libapache-jena-java and a JDK" >&2; exit 1; }
[ $# -gt 0 ] || exit 0

classes=
for name in jena-arq jena-cmds jena-core jena-base jena-iri jena-tdb commons-cli commons-codec commons-compress commons-csv commons-io commons-lang3 dexx.collection gson guava httpclient httpcore \
    jackson-annotations jackson-core jackson-databind jakarta.json-api jsonld-java protobuf slf4j-api slf4j-nop thrift titanium-json-ld; do
    classes=$classes:$jars/$name.jar
done

# Debian's jena-core.jar has the classes of the XML schema in a package xerces, and their messages in a folder of another name, without which Jena ends with "internal error" as it starts.
room=$(mktemp -d)
java=
trap 'kill $java 2>/dev/null; rm -r "$room"' EXIT
trap 'exit 143' TERM INT
exec 3<&0
(cd "$room" && jar xf $jars/jena-core.jar org/apache/jena/ext/xerces)

# (it starts in a third of the time with few ways to make it fast later)
java -XX:+UseSerialGC -XX:TieredStopAtLevel=1 -Dsun.net.httpserver.nodelay=true -cp "$room/org/apache/jena/ext$classes" "$@" <&3 &
java=$!
wait $java
