package limits;

import extensionstore.StoreException;
import extensionstore.junit.ProvedStore;
import java.util.ArrayList;
import java.util.List;
import org.junit.jupiter.api.Assertions;
import org.junit.jupiter.api.Test;
import org.junit.jupiter.api.extension.AfterAllCallback;
import org.junit.jupiter.api.extension.BeforeEachCallback;
import org.junit.jupiter.api.extension.ExtendWith;
import org.junit.jupiter.api.extension.ExtensionContext;
import org.junit.jupiter.api.extension.ExtensionContext.Namespace;
import org.junit.jupiter.api.extension.ExtensionContext.Store;
import org.junit.jupiter.api.extension.ExtensionContext.Store.CloseableResource;

/** A context has as many keys as are asked for, each in one store; a method's has 4,095 numbers, a class's more. What is not stored is handed back. */
@ExtendWith(LimitsTests.Filling.class)
class LimitsTests {
    private static final Namespace NAMESPACE = Namespace.create(LimitsTests.class);
    private static final int KEYS = 1_200;

    static class Filling implements BeforeEachCallback, AfterAllCallback {
        private static final List<Integer> CLOSED = new ArrayList<>();

        @Override
        public void beforeEach(ExtensionContext context) {
            manyKeys(ProvedStore.of(context, NAMESPACE));
            Store ofClass = ProvedStore.of(context.getParent().orElseThrow(), NAMESPACE);
            for (int number = 0; number < 10_000; number++) {
                ofClass.put("number", number);
            }
            manyNumbers(ProvedStore.of(context, NAMESPACE));
        }

        private static void manyNumbers(Store store) {
            CloseableResource resource = () -> CLOSED.add(-1);
            int stored = 0;
            while (stored < 5_000 && isPut(store, stored)) {
                stored++;
            }
            // the first store of the context has 64 of the other keys, and this one stands in its third
            Assertions.assertEquals(4_095 - (KEYS - 64 - 1_024), stored);
            String message = "all numbers of the store were drawn: number; the configuration parameter extensionstore.numbers is 4095";
            refused(message, resource, () -> store.put("number", resource));
            Assertions.assertEquals(stored - 1, store.remove("number"));
            Assertions.assertEquals(9_999, store.get("number")); // the class's
            refused(message, resource, () -> store.put("number", resource));
        }

        private static boolean isPut(Store store, int number) {
            try {
                store.put("number", number);
                return true;
            } catch (StoreException full) {
                return false;
            }
        }

        private static void manyKeys(Store store) {
            for (int key = 0; key < KEYS; key++) {
                int own = key;
                CloseableResource made = () -> CLOSED.add(own);
                Assertions.assertSame(made, key % 2 == 0 ? put(store, key, made) : store.getOrComputeIfAbsent(key, it -> made));
            }
            for (int key = 0; key < KEYS; key++) {
                Assertions.assertSame(store.get(key), store.getOrComputeIfAbsent(key, it -> "another"));
            }
            store.remove(KEYS - 1);
            Assertions.assertNull(store.get(KEYS - 1));
        }

        private static Object put(Store store, Object key, Object value) {
            store.put(key, value);
            return store.get(key);
        }

        private static void refused(String message, CloseableResource resource, Runnable call) {
            StoreException refusal = Assertions.assertThrows(StoreException.class, call::run);
            Assertions.assertEquals(message, refusal.getMessage());
            Assertions.assertSame(resource, refusal.getValue());
        }

        @Override
        public void afterAll(ExtensionContext context) {
            List<Integer> wanted = new ArrayList<>();
            for (int key = KEYS - 2; key >= 0; key--) {
                wanted.add(key);
            }
            Assertions.assertEquals(wanted, CLOSED);
            Assertions.assertEquals(9_999, ProvedStore.of(context, NAMESPACE).get("number"));
        }
    }

    @Test
    void areTold() {}
}
