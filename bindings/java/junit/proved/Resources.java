package proved;

import extensionstore.junit.ProvedStore;
import java.util.concurrent.atomic.AtomicInteger;
import org.junit.jupiter.api.extension.AfterEachCallback;
import org.junit.jupiter.api.extension.BeforeAllCallback;
import org.junit.jupiter.api.extension.BeforeEachCallback;
import org.junit.jupiter.api.extension.ExtensionContext;
import org.junit.jupiter.api.extension.ExtensionContext.Namespace;
import org.junit.jupiter.api.extension.ExtensionContext.Store;
import org.junit.jupiter.api.extension.ExtensionContext.Store.CloseableResource;

/**
 * A server for the whole run, made once, a thing for each class outside of others and one for each test; all are closed at the ends of their contexts.
 * The last close, the server's, prints the counts.
 */
public class Resources implements BeforeAllCallback, BeforeEachCallback, AfterEachCallback {
    private static final AtomicInteger SERVERS = new AtomicInteger();
    private static final AtomicInteger CLASSES = new AtomicInteger();
    private static final AtomicInteger TESTS = new AtomicInteger();
    private static final AtomicInteger CLOSED = new AtomicInteger();
    private static final Namespace NAMESPACE = Namespace.create(Resources.class);
    private static final int PUTS = 50;

    /** Something that is closed once, and looks then at the context in which it stands. */
    private static final class Thing implements CloseableResource {
        private final Store store;
        private final String key;
        private final String name;
        private volatile boolean closed;

        Thing(Store store, String key, String name) {
            this.store = store;
            this.key = key;
            this.name = name;
        }

        @Override
        public void close() {
            check(!closed, "closed twice");
            check(store.get(key) == this && store.get("no such key") == null, "not what is being closed");
            closed = true;
            int count = CLOSED.incrementAndGet();
            if (key.equals("server")) {
                System.out.println("servers " + SERVERS + ", classes " + CLASSES + ", tests " + TESTS + ", closed " + count);
            }
        }
    }

    private static void check(boolean holds, String otherwise) {
        if (!holds) {
            throw new IllegalStateException(otherwise);
        }
    }

    private static Store store(ExtensionContext context) {
        return ProvedStore.of(context, NAMESPACE);
    }

    private static Thing server(ExtensionContext context) {
        Store root = store(context.getRoot());
        return root.getOrComputeIfAbsent("server", key -> {
            SERVERS.incrementAndGet();
            return new Thing(root, key, "server");
        }, Thing.class);
    }

    @Override
    public void beforeAll(ExtensionContext context) {
        Store store = store(context);
        Thing own = store.getOrComputeIfAbsent("class", key -> {
            CLASSES.incrementAndGet();
            return new Thing(store, key, context.getUniqueId());
        }, Thing.class);
        check(!own.closed && context.getUniqueId().startsWith(own.name), "closed too early, or another's");
        Thing server = server(context);
        check(!server.closed && store.get("server") == server, "another server");
    }

    @Override
    public void beforeEach(ExtensionContext context) {
        Store store = store(context);
        Thing server = server(context);
        Thing ofClass = store.get("class", Thing.class);
        check(!server.closed && !ofClass.closed && context.getUniqueId().startsWith(ofClass.name), "closed too early, or another's");
        store.put("test", new Thing(store, "test", context.getUniqueId()));
        TESTS.incrementAndGet();
        for (int put = 0; put < PUTS; put++) {
            store.put("count", put);
            check(store.get("count", int.class) == put && store.get("server") == server && store.get("class") == ofClass, "not what was stored");
        }
        store.put("server", null);
        check(store.get("server") == null && server(context) == server, "null is a value");
        store.remove("server");
        check(store.get("server") == server && ProvedStore.of(context, NAMESPACE.append("other")).get("server") == null, "not the server");
    }

    @Override
    public void afterEach(ExtensionContext context) {
        Thing own = store(context).get("test", Thing.class);
        check(!own.closed && own.name.equals(context.getUniqueId()), "another test's");
    }
}
