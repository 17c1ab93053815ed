package asked;

import extensionstore.StoreException;
import extensionstore.junit.ProvedStore;
import org.junit.jupiter.api.Assertions;
import org.junit.jupiter.api.Test;
import org.junit.jupiter.api.extension.BeforeEachCallback;
import org.junit.jupiter.api.extension.ExtendWith;
import org.junit.jupiter.api.extension.ExtensionContext;
import org.junit.jupiter.api.extension.ExtensionContext.Namespace;
import org.junit.jupiter.api.extension.ExtensionContext.Store;

/** Contexts whose numbers a configuration parameter tells: 70,000, of a large store. */
@ExtendWith(AskedLimitsTests.Filling.class)
class AskedLimitsTests {
    static class Filling implements BeforeEachCallback {
        @Override
        public void beforeEach(ExtensionContext context) {
            Store store = ProvedStore.of(context, Namespace.GLOBAL);
            for (int number = 1; number <= 70_000; number++) {
                store.put(0, number);
            }
            String message = "all numbers of the store were drawn: 0; the configuration parameter extensionstore.numbers is 70000";
            Assertions.assertEquals(message, Assertions.assertThrows(StoreException.class, () -> store.put(0, 70_001)).getMessage());
            Assertions.assertEquals(70_000, store.get(0));
        }
    }

    @Test
    void areKept() {}
}
