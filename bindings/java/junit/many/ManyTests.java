package many;

import extensionstore.junit.ProvedStore;
import java.io.IOException;
import java.nio.file.Files;
import java.nio.file.Path;
import org.junit.jupiter.api.Assertions;
import org.junit.jupiter.api.RepeatedTest;
import org.junit.jupiter.api.extension.AfterAllCallback;
import org.junit.jupiter.api.extension.BeforeEachCallback;
import org.junit.jupiter.api.extension.ExtendWith;
import org.junit.jupiter.api.extension.ExtensionContext;
import org.junit.jupiter.api.extension.ExtensionContext.Namespace;
import org.junit.jupiter.api.extension.ExtensionContext.Store.CloseableResource;

/** Ten thousand contexts with a store each: what the library takes for one goes with it. To be run with a heap that does not grow. */
@ExtendWith(ManyTests.Storing.class)
class ManyTests {
    static class Storing implements BeforeEachCallback, AfterAllCallback {
        private static int stored;
        private static int closed;
        private static long before;

        @Override
        public void beforeEach(ExtensionContext context) throws IOException {
            ProvedStore.of(context, Namespace.GLOBAL).put("key", (CloseableResource) () -> closed++);
            if (++stored == 1_000) { // until then the machine itself takes more
                before = residentKilobytes();
            }
        }

        @Override
        public void afterAll(ExtensionContext context) throws IOException {
            Assertions.assertEquals(stored, closed);
            long grown = residentKilobytes() - before;
            // some 14 for each store that is not freed
            Assertions.assertTrue(grown < 60_000, grown + " kB more");
        }

        private static long residentKilobytes() throws IOException {
            for (String line : Files.readAllLines(Path.of("/proc/self/status"))) {
                if (line.startsWith("VmRSS:")) {
                    return Long.parseLong(line.replaceAll("\\D", ""));
                }
            }
            throw new IOException("there is no VmRSS");
        }
    }

    @RepeatedTest(10_000)
    void stores() {}
}
