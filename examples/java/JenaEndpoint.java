import com.sun.net.httpserver.HttpExchange;
import com.sun.net.httpserver.HttpServer;
import java.io.BufferedReader;
import java.io.ByteArrayOutputStream;
import java.io.IOException;
import java.io.InputStreamReader;
import java.io.OutputStream;
import java.net.InetSocketAddress;
import java.nio.charset.StandardCharsets;
import java.util.HashMap;
import java.util.Map;
import java.util.concurrent.Executors;
import org.apache.jena.query.Dataset;
import org.apache.jena.query.DatasetFactory;
import org.apache.jena.query.QueryExecution;
import org.apache.jena.query.QueryExecutionFactory;
import org.apache.jena.query.ResultSetFormatter;
import org.apache.jena.riot.Lang;
import org.apache.jena.riot.RDFParser;
import org.apache.jena.system.Txn;

/**
 * Serves a file of N-Triples with Jena at http://127.0.0.1:PORT/sparql: examples/jena.sh examples/java/JenaEndpoint.java GRAPH PORT
 *
 * It answers what fedx asks an endpoint, a query that is posted as its text, in JSON. A query that Jena can't read or answer is status 400. Where no graph and port are named, each
 * line of standard input, `PORT GRAPH`, says what to serve from then on at a port, and is printed once it is.
 */
final class JenaEndpoint {
    /** An endpoint over the triples of a file, which answers until it is stopped. */
    static HttpServer serve(String graph, int port) throws IOException {
        // (of Jena's graphs in memory the one that keeps terms as they are written: the others take "1" and "01" for one)
        Dataset dataset = DatasetFactory.createTxnMem();
        Txn.executeWrite(dataset, () -> RDFParser.source(graph).lang(Lang.NTRIPLES).parse(dataset));
        HttpServer server = HttpServer.create(new InetSocketAddress("127.0.0.1", port), 128);
        server.createContext("/", exchange -> reply(exchange, dataset));
        server.setExecutor(Executors.newCachedThreadPool());
        server.start();
        return server;
    }

    private static void reply(HttpExchange exchange, Dataset dataset) throws IOException {
        String query = new String(exchange.getRequestBody().readAllBytes(), StandardCharsets.UTF_8);
        int status = 200;
        String kind = "application/sparql-results+json";
        byte[] body;
        try {
            body = Txn.calculateRead(dataset, () -> document(query, dataset));
        } catch (RuntimeException fault) {
            status = 400;
            kind = "text/plain";
            body = (fault + "\n").getBytes(StandardCharsets.UTF_8);
        }
        exchange.getResponseHeaders().set("Content-Type", kind);
        exchange.sendResponseHeaders(status, body.length);
        try (OutputStream out = exchange.getResponseBody()) {
            out.write(body);
        }
    }

    private static byte[] document(String query, Dataset dataset) {
        ByteArrayOutputStream out = new ByteArrayOutputStream();
        try (QueryExecution asked = QueryExecutionFactory.create(query, dataset)) {
            if (asked.getQuery().isAskType()) {
                ResultSetFormatter.outputAsJSON(out, asked.execAsk());
            } else {
                ResultSetFormatter.outputAsJSON(out, asked.execSelect());
            }
        }
        return out.toByteArray();
    }

    public static void main(String[] words) throws IOException {
        if (words.length == 2) {
            serve(words[0], Integer.parseInt(words[1]));
            return;
        }
        Map<String, HttpServer> running = new HashMap<>();
        BufferedReader lines = new BufferedReader(new InputStreamReader(System.in, StandardCharsets.UTF_8));
        for (String line = lines.readLine(); line != null; line = lines.readLine()) {
            String[] asked = line.split(" ", 2);
            if (running.containsKey(asked[0])) {
                running.get(asked[0]).stop(0);
            }
            running.put(asked[0], serve(asked[1], Integer.parseInt(asked[0])));
            System.out.println(line);
        }
        System.exit(0);
    }
}
