package later;

import extensionstore.junit.ProvedStore;
import java.util.ArrayList;
import java.util.List;
import org.junit.jupiter.api.Assertions;
import org.junit.jupiter.api.Test;
import org.junit.jupiter.api.extension.AfterAllCallback;
import org.junit.jupiter.api.extension.BeforeEachCallback;
import org.junit.jupiter.api.extension.ExtendWith;
import org.junit.jupiter.api.extension.ExtensionContext;
import org.junit.jupiter.api.extension.ExtensionContext.Namespace;
import org.junit.jupiter.api.extension.ExtensionContext.Store;
import org.junit.jupiter.api.extension.ExtensionContext.Store.CloseableResource;

/** Whether what is only {@code AutoCloseable} is closed, which the property {@code closes.all} tells: since JUnit 5.13, unless a parameter says no. */
@ExtendWith(AutoCloseableTests.Storing.class)
class AutoCloseableTests {
    static class Storing implements BeforeEachCallback, AfterAllCallback {
        private static final List<String> CLOSED = new ArrayList<>();

        @Override
        public void beforeEach(ExtensionContext context) {
            Store store = ProvedStore.of(context, Namespace.GLOBAL);
            AutoCloseable put = () -> CLOSED.add("put");
            store.put("put", put);
            store.getOrComputeIfAbsent("computed", key -> (AutoCloseable) () -> CLOSED.add("computed"));
            store.put("resource", (CloseableResource) () -> CLOSED.add("resource"));
            Assertions.assertSame(put, store.get("put"));
        }

        @Override
        public void afterAll(ExtensionContext context) {
            Assertions.assertEquals(Boolean.getBoolean("closes.all") ? List.of("resource", "computed", "put") : List.of("resource"), CLOSED);
        }
    }

    @Test
    void areStored() {}
}
