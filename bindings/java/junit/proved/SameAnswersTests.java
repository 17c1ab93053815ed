package proved;

import extensionstore.Key;
import extensionstore.StoreException;
import extensionstore.junit.ProvedStore;
import java.util.ArrayList;
import java.util.List;
import java.util.Queue;
import java.util.concurrent.Callable;
import java.util.concurrent.ConcurrentLinkedQueue;
import org.junit.jupiter.api.Assertions;
import org.junit.jupiter.api.RepeatedTest;
import org.junit.jupiter.api.extension.AfterAllCallback;
import org.junit.jupiter.api.extension.BeforeEachCallback;
import org.junit.jupiter.api.extension.ExtendWith;
import org.junit.jupiter.api.extension.ExtensionContext;
import org.junit.jupiter.api.extension.ExtensionContext.Namespace;
import org.junit.jupiter.api.extension.ExtensionContext.Store;

/** The same calls on both stores have the same answers, and throw the same; and one of a closed context refuses each call. */
@ExtendWith(SameAnswersTests.Asking.class)
class SameAnswersTests {
    private static final Namespace NAMESPACE = Namespace.create(SameAnswersTests.class);

    /** A call on the store of a test, or on that of its class. */
    private interface Call {
        Object on(Store test, Store ofClass) throws Exception;
    }

    private static final class Hidden {
        private Hidden() {}

        @Override
        public String toString() {
            return "hidden";
        }
    }

    private static final class Failing {
        private Failing() {
            throw new IllegalStateException("as wanted");
        }
    }

    // Not among them: an Integer asked for as a long, where a cast fails in JUnit's own store; and a creator that throws no RuntimeException, which
    // that store calls again when it closes.
    private static final List<Call> CALLS = List.of(
            (test, ofClass) -> test.get("absent"),
            (test, ofClass) -> test.getOrDefault("absent", String.class, "default"),
            (test, ofClass) -> test.remove("absent"),
            (test, ofClass) -> test.remove("absent", String.class),
            (test, ofClass) -> put(ofClass, "key", "class's"),
            (test, ofClass) -> test.get("key"),
            (test, ofClass) -> test.remove("key"),
            (test, ofClass) -> test.getOrComputeIfAbsent("key", it -> "made"),
            (test, ofClass) -> put(test, "key", null),
            (test, ofClass) -> test.get("key"),
            (test, ofClass) -> test.getOrDefault("key", String.class, "default"),
            (test, ofClass) -> test.getOrComputeIfAbsent("key", it -> "made"),
            (test, ofClass) -> put(test, "key", 7),
            (test, ofClass) -> test.get("key", int.class),
            (test, ofClass) -> test.get("key", Integer.class),
            (test, ofClass) -> test.get("key", String.class),
            (test, ofClass) -> ofClass.get("key", String.class),
            (test, ofClass) -> test.remove("key", String.class),
            (test, ofClass) -> test.get("key"),
            (test, ofClass) -> test.getOrComputeIfAbsent("made", it -> it + "!"),
            (test, ofClass) -> test.getOrComputeIfAbsent("made", it -> "again", String.class),
            (test, ofClass) -> test.getOrComputeIfAbsent("made", it -> 1, Integer.class),
            (test, ofClass) -> ofClass.get("made"),
            (test, ofClass) -> ofClass.getOrComputeIfAbsent("fault", it -> failing()),
            (test, ofClass) -> test.get("fault"),
            (test, ofClass) -> test.getOrComputeIfAbsent("fault", it -> "made"),
            (test, ofClass) -> ofClass.remove("fault"),
            (test, ofClass) -> ofClass.get("fault"),
            (test, ofClass) -> test.getOrComputeIfAbsent(Hidden.class),
            (test, ofClass) -> test.getOrComputeIfAbsent(Failing.class),
            (test, ofClass) -> test.get(Failing.class),
            (test, ofClass) -> test.get(null),
            (test, ofClass) -> test.get(null, String.class),
            (test, ofClass) -> test.get("made", null),
            (test, ofClass) -> put(test, null, 1),
            (test, ofClass) -> test.getOrComputeIfAbsent(null, it -> 1),
            (test, ofClass) -> test.getOrComputeIfAbsent("other", null),
            (test, ofClass) -> test.getOrComputeIfAbsent("other", null, String.class),
            (test, ofClass) -> test.getOrComputeIfAbsent("other", it -> "made", null),
            (test, ofClass) -> test.get("other"),
            (test, ofClass) -> test.remove(null),
            (test, ofClass) -> test.remove("made", null),
            (test, ofClass) -> test.get("made"),
            (test, ofClass) -> ofClass.remove("key"));

    private static Object put(Store store, Object key, Object value) {
        store.put(key, value);
        return "put";
    }

    private static Object failing() {
        throw new IllegalStateException("as wanted");
    }

    private static String answer(Callable<?> call) {
        try {
            return "" + call.call();
        } catch (Throwable fault) {
            return fault.toString();
        }
    }

    static class Asking implements BeforeEachCallback, AfterAllCallback {
        private static final Queue<Store> OF_TESTS = new ConcurrentLinkedQueue<>();

        @Override
        public void beforeEach(ExtensionContext context) {
            // each test has a class's store of its own
            Namespace own = NAMESPACE.append(context.getUniqueId());
            ExtensionContext ofClass = context.getParent().orElseThrow().getParent().orElseThrow();
            List<String> junits = new ArrayList<>();
            List<String> proved = new ArrayList<>();
            for (Call call : CALLS) {
                junits.add(answer(() -> call.on(context.getStore(own), ofClass.getStore(own))));
                proved.add(answer(() -> call.on(ProvedStore.of(context, own), ProvedStore.of(ofClass, own))));
            }
            Assertions.assertEquals(junits, proved);
            Assertions.assertEquals(answer(() -> context.getStore(null)), answer(() -> ProvedStore.of(context, null)));
            Store store = ProvedStore.of(context, own);
            Key key = Key.of("class's");
            Assertions.assertNull(store.get(key));
            ProvedStore.of(ofClass, own).put("class's", "class's");
            Assertions.assertEquals("class's", store.get(key));
            Assertions.assertNull(ProvedStore.of(ofClass, own.append("other")).get(key));
            store.put(key, "own");
            Assertions.assertEquals("own", store.get("class's"));
            Assertions.assertEquals("class's", ProvedStore.of(ofClass, own).remove(key));
            store.put("number", 7);
            Assertions.assertEquals("org.junit.jupiter.api.extension.ExtensionContextException: Object stored under key [number] is not of required type [long]",
                    answer(() -> store.get("number", long.class)));
            OF_TESTS.add(store);
            OF_TESTS.add(ProvedStore.of(context.getParent().orElseThrow(), own)); // in which nothing is stored
        }

        @Override
        public void afterAll(ExtensionContext context) {
            Assertions.assertEquals(6, OF_TESTS.size());
            for (Store closed : OF_TESTS) {
                refused(() -> closed.get("key"));
                refused(() -> closed.remove("key"));
                refused(() -> closed.getOrComputeIfAbsent("key", it -> "made"));
                refused(() -> put(closed, "key", "value"));
            }
        }

        private static void refused(Callable<?> call) {
            StoreException refused = Assertions.assertThrows(StoreException.class, call::call);
            Assertions.assertTrue(refused.isClosed());
        }
    }

    @RepeatedTest(3)
    void asks() {}
}
