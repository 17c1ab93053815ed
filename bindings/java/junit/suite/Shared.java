package suite;

import java.util.concurrent.atomic.AtomicInteger;
import org.junit.jupiter.api.extension.AfterEachCallback;
import org.junit.jupiter.api.extension.BeforeAllCallback;
import org.junit.jupiter.api.extension.BeforeEachCallback;
import org.junit.jupiter.api.extension.ExtensionContext;
import org.junit.jupiter.api.extension.ExtensionContext.Namespace;
import org.junit.jupiter.api.extension.ExtensionContext.Store.CloseableResource;

/**
 * A server for the whole run, made once, a thing for each class and one for each test, and many values put over one another; all closeable ones
 * are closed at the ends of their contexts. The last close, the server's, prints the counts.
 */
public class Shared implements BeforeAllCallback, BeforeEachCallback, AfterEachCallback {
    static final AtomicInteger SERVERS = new AtomicInteger();
    static final AtomicInteger CLASSES = new AtomicInteger();
    static final AtomicInteger TESTS = new AtomicInteger();
    static final AtomicInteger CLOSED = new AtomicInteger();
    private static final Namespace NAMESPACE = Namespace.create(Shared.class);
    private static final int PUTS = 200;

    /** Something that is closed once. */
    static final class Thing implements CloseableResource {
        final String name;
        volatile boolean closed;

        Thing(String name) {
            this.name = name;
        }

        @Override
        public void close() {
            if (closed) {
                throw new IllegalStateException("closed twice: " + name);
            }
            closed = true;
            int count = CLOSED.incrementAndGet();
            if (name.equals("server")) {
                System.out.println("servers " + SERVERS + ", classes " + CLASSES + ", tests " + TESTS + ", closed " + count + ", stores of ours " + opened());
            }
        }
    }

    /** How many of the proved stores were opened: 0 where JUnit's own class runs. */
    private static Object opened() {
        try {
            var counter = Class.forName("org.junit.jupiter.engine.execution.Places").getDeclaredField("OPENED");
            counter.setAccessible(true);
            return counter.get(null);
        } catch (ReflectiveOperationException own) {
            return 0;
        }
    }

    private static Thing server(ExtensionContext context) {
        return context.getRoot().getStore(NAMESPACE).getOrComputeIfAbsent("server", key -> {
            SERVERS.incrementAndGet();
            return new Thing("server");
        }, Thing.class);
    }

    private static void check(boolean holds, String otherwise) {
        if (!holds) {
            throw new IllegalStateException(otherwise);
        }
    }

    @Override
    public void beforeAll(ExtensionContext context) {
        server(context);
        context.getStore(NAMESPACE).getOrComputeIfAbsent("class", key -> {
            CLASSES.incrementAndGet();
            return new Thing("class " + context.getDisplayName());
        });
    }

    @Override
    public void beforeEach(ExtensionContext context) {
        ExtensionContext.Store store = context.getStore(NAMESPACE);
        Thing server = server(context);
        Thing own = store.get("class", Thing.class);
        check(!server.closed && !own.closed && own.name.startsWith("class "), "closed too early, or another's");
        store.put("test", new Thing("test " + context.getUniqueId()));
        TESTS.incrementAndGet();
        for (int put = 0; put < PUTS; put++) {
            store.put("count", put);
            check(store.get("count", int.class) == put && server(context) == server && store.get("class") == own, "not what was stored");
        }
    }

    @Override
    public void afterEach(ExtensionContext context) {
        Thing own = context.getStore(NAMESPACE).get("test", Thing.class);
        check(!own.closed && own.name.equals("test " + context.getUniqueId()), "another test's");
    }
}
