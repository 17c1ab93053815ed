import extensionstore.CloseableResource;
import extensionstore.Contexts;
import extensionstore.Limits;
import extensionstore.Namespace;
import extensionstore.Store;
import java.util.List;

/**
 * Two tests need one server, each on a thread of its own: whichever comes first starts it, both find it, and it is stopped when their context
 * has ended. bindings/README.md shows some of it.
 */
final class SharedServer {
    private static final Namespace NAMESPACE = Namespace.create("web");

    /** A server. */
    static final class Server implements CloseableResource {
        final int port;

        Server(int port) {
            this.port = port;
            System.out.println("started " + port);
        }

        @Override
        public void close() {
            System.out.println("stopped " + port);
        }
    }

    /** A test: the server is found, or started. While the other test starts it the call waits. */
    static void test(Contexts contexts, String method) {
        Store store = contexts.context("[engine:x]/[class:A]").getStore(NAMESPACE);
        Server server = store.getOrComputeIfAbsent("server", key -> new Server(8080), Server.class);
        Store below = contexts.context("[engine:x]/[class:A]/[method:" + method + "]").getStore(NAMESPACE);
        System.out.println("test: " + server.port + " " + (below.get("server") == server));
    }

    public static void main(String[] words) throws InterruptedException {
        List<String> ids = List.of("[engine:x]", "[engine:x]/[class:A]", "[engine:x]/[class:A]/[method:a()]", "[engine:x]/[class:A]/[method:b()]");
        try (Contexts contexts = Contexts.open(Limits.USUAL, ids)) {
            Thread first = new Thread(() -> test(contexts, "a()"));
            Thread second = new Thread(() -> test(contexts, "b()"));
            first.start();
            second.start();
            first.join();
            second.join();
        }
    }
}
