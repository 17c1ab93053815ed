package unfit;

import extensionstore.Contexts;
import extensionstore.Limits;
import extensionstore.StoreException;
import extensionstore.junit.ProvedStore;
import java.util.List;
import org.junit.jupiter.api.Assertions;
import org.junit.jupiter.api.Test;
import org.junit.jupiter.api.extension.BeforeEachCallback;
import org.junit.jupiter.api.extension.ExtendWith;
import org.junit.jupiter.api.extension.ExtensionContext;
import org.junit.jupiter.api.extension.ExtensionContext.Namespace;
import org.junit.jupiter.api.extension.ExtensionContext.Store;
import org.junit.jupiter.api.extension.ExtensionContextException;

/**
 * The jar where it has no library for the machine, or can't load it from the temporary folder: both ways to a store say so, each time; and who asks for it
 * gets JUnit's own, with one warning.
 */
@ExtendWith(NoLibraryTests.Asking.class)
class NoLibraryTests {
    static class Asking implements BeforeEachCallback {
        @Override
        public void beforeEach(ExtensionContext context) {
            String why = Contexts.unavailable().orElseThrow();
            Assertions.assertTrue(why.startsWith("the native library for this machine, META-INF/native/linux-"), why);
            Assertions.assertTrue(why.contains("; the property extensionstore.library may name its file"), why);
            for (int time = 0; time < 2; time++) {
                Exception refused = Assertions.assertThrows(ExtensionContextException.class, () -> ProvedStore.of(context, Namespace.GLOBAL));
                Assertions.assertEquals("no proved store: " + why, refused.getMessage());
                refused = Assertions.assertThrows(StoreException.class, () -> Contexts.open(Limits.USUAL, List.of("[engine:x]")));
                Assertions.assertEquals("not opened: " + why, refused.getMessage());
                Store junits = ProvedStore.orJUnits(context, Namespace.GLOBAL);
                junits.put("time", time);
                Assertions.assertEquals(time, context.getStore(Namespace.GLOBAL).get("time"));
            }
        }
    }

    @Test
    void isTold() {}
}
