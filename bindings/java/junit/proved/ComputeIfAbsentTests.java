package proved;

import extensionstore.junit.ProvedStore;
import java.util.List;
import java.util.concurrent.ConcurrentLinkedQueue;
import org.junit.jupiter.api.Assertions;
import org.junit.jupiter.api.Test;
import org.junit.jupiter.api.extension.AfterAllCallback;
import org.junit.jupiter.api.extension.BeforeEachCallback;
import org.junit.jupiter.api.extension.ExtendWith;
import org.junit.jupiter.api.extension.ExtensionContext;
import org.junit.jupiter.api.extension.ExtensionContext.Namespace;
import org.junit.jupiter.api.extension.ExtensionContext.Store.CloseableResource;
import org.junit.jupiter.api.extension.ExtensionContextException;
import org.junit.platform.commons.PreconditionViolationException;

/** JUnit 6's {@code computeIfAbsent}: a null that stands there is as nothing. */
@ExtendWith(ComputeIfAbsentTests.Asking.class)
class ComputeIfAbsentTests {
    private static final Namespace NAMESPACE = Namespace.create(ComputeIfAbsentTests.class);

    static class Asking implements BeforeEachCallback, AfterAllCallback {
        private static final ConcurrentLinkedQueue<String> CLOSED = new ConcurrentLinkedQueue<>();

        @Override
        public void beforeEach(ExtensionContext context) {
            ProvedStore store = ProvedStore.of(context, NAMESPACE);
            ProvedStore ofClass = ProvedStore.of(context.getParent().orElseThrow(), NAMESPACE);
            Assertions.assertEquals("made", store.computeIfAbsent("key", key -> "made"));
            Assertions.assertEquals("made", store.computeIfAbsent("key", key -> "again", String.class));
            Assertions.assertThrows(ExtensionContextException.class, () -> store.computeIfAbsent("key", key -> 1, Integer.class));
            store.put("key", null);
            CloseableResource resource = () -> CLOSED.add("closed");
            Assertions.assertSame(resource, store.computeIfAbsent("key", key -> resource));
            Assertions.assertSame(resource, store.get("key"));
            ofClass.put("above", null);
            Assertions.assertEquals("above!", store.computeIfAbsent("above", key -> key + "!"));
            Assertions.assertNull(ofClass.get("above"));
            ofClass.put("above", 7);
            store.remove("above");
            Assertions.assertEquals(7, store.computeIfAbsent("above", key -> 8, int.class));
            Assertions.assertThrows(PreconditionViolationException.class, () -> store.computeIfAbsent("null", key -> null));
            Assertions.assertThrows(PreconditionViolationException.class, () -> store.computeIfAbsent(null, key -> 1));
            Assertions.assertThrows(PreconditionViolationException.class, () -> store.computeIfAbsent("null", null));
        }

        @Override
        public void afterAll(ExtensionContext context) {
            Assertions.assertEquals(List.of("closed"), List.copyOf(CLOSED));
        }
    }

    @Test
    void asks() {}
}
