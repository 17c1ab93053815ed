package proved;

import static org.junit.jupiter.api.Assertions.assertEquals;
import static org.junit.platform.engine.discovery.DiscoverySelectors.selectClass;

import extensionstore.junit.ProvedStore;
import java.io.IOException;
import java.nio.file.Files;
import java.nio.file.Path;
import java.util.ArrayList;
import java.util.Collections;
import java.util.List;
import java.util.concurrent.CountDownLatch;
import java.util.stream.Collectors;
import org.junit.jupiter.api.Test;
import org.junit.jupiter.api.extension.BeforeEachCallback;
import org.junit.jupiter.api.extension.ExtendWith;
import org.junit.jupiter.api.extension.ExtensionContext;
import org.junit.jupiter.api.extension.ExtensionContext.Namespace;
import org.junit.jupiter.api.extension.ExtensionContext.Store;
import org.junit.jupiter.api.extension.ExtensionContext.Store.CloseableResource;
import org.junit.jupiter.api.extension.ParameterContext;
import org.junit.jupiter.api.extension.ParameterResolver;
import org.junit.jupiter.api.io.TempDir;
import org.junit.platform.launcher.core.LauncherDiscoveryRequestBuilder;
import org.junit.platform.launcher.core.LauncherFactory;
import org.junit.platform.launcher.listeners.SummaryGeneratingListener;

/** Resources of JUnit's store and of the proved one, in one context: each is closed once, after those that came later in either store. */
class OrderTests {
    private static final Namespace NAMESPACE = Namespace.create(OrderTests.class);

    /** Writes into its folder while it is closed. */
    private static final class Journal implements CloseableResource {
        private Path folder;

        @Override
        public void close() throws IOException {
            Files.writeString(folder.resolve("journal"), "end");
        }
    }

    static class Journals implements BeforeEachCallback, ParameterResolver {
        @Override
        public void beforeEach(ExtensionContext context) {
            ProvedStore.of(context, NAMESPACE).put("stored before the folder is made", true);
        }

        @Override
        public boolean supportsParameter(ParameterContext parameter, ExtensionContext context) {
            return parameter.getParameter().getType() == Journal.class;
        }

        @Override
        public Object resolveParameter(ParameterContext parameter, ExtensionContext context) {
            return ProvedStore.of(context, NAMESPACE).getOrComputeIfAbsent("journal", key -> new Journal(), Journal.class);
        }
    }

    @Test
    @ExtendWith(Journals.class)
    void closesBeforeTheFolderIsDeleted(@TempDir Path folder, Journal journal) {
        journal.folder = folder;
    }

    /** What was closed in the test that {@link #closesEachOnceInItsTurn} runs. */
    private static final List<String> CLOSED = Collections.synchronizedList(new ArrayList<>());

    static class Both implements BeforeEachCallback {
        private static CloseableResource named(String name) {
            return () -> {
                CLOSED.add(name);
                if (name.startsWith("throws")) {
                    throw new IOException(name);
                }
            };
        }

        @Override
        public void beforeEach(ExtensionContext context) {
            Store junits = context.getStore(NAMESPACE);
            Store proved = ProvedStore.of(context, NAMESPACE);
            proved.put("replaced", named("replaced"));
            junits.put(1, named("junit's 1"));
            proved.put(1, named("throws 1"));
            junits.put(2, named("junit's 2"));
            proved.getOrComputeIfAbsent("needs another", key -> {
                proved.getOrComputeIfAbsent("needed", needed -> named("needed"));
                junits.put(3, named("junit's 3"));
                return named("needs another");
            });
            proved.put("removed", named("removed"));
            proved.put(2, named("throws 2"));
            proved.remove("removed");
            proved.put("replaced", named("put over another"));
            junits.put(4, named("junit's 4"));
            ProvedStore.of(context, NAMESPACE.append("other")).put(2, named("last"));
        }
    }

    /** A creator that ends when JUnit has begun to close the context. */
    static class Late implements BeforeEachCallback {
        @Override
        public void beforeEach(ExtensionContext context) {
            CountDownLatch begun = new CountDownLatch(1);
            CountDownLatch closes = new CountDownLatch(1);
            Store store = ProvedStore.of(context, NAMESPACE);
            store.put("earlier", Both.named("earlier"));
            context.getStore(NAMESPACE).put("first to be closed", (CloseableResource) closes::countDown);
            new Thread(() -> store.getOrComputeIfAbsent("late", key -> {
                begun.countDown();
                await(closes);
                return Both.named("late");
            })).start();
            await(begun);
        }

        private static void await(CountDownLatch latch) {
            try {
                latch.await();
            } catch (InterruptedException late) {
                throw new IllegalStateException(late);
            }
        }
    }

    /** Run by {@link #closesEachOnceInItsTurn}, too. What came during the close is closed with the context. */
    @ExtendWith(Late.class)
    static class Waiting {
        @Test
        void endsBeforeTheCreator() {}
    }

    /** Run by {@link #closesEachOnceInItsTurn}, since its closes fail. */
    @ExtendWith(Both.class)
    static class Failing {
        @Test
        void inBothStores() {}
    }

    private static String faultsOf(Class<?> tests, List<String> closed) {
        CLOSED.clear();
        SummaryGeneratingListener listener = new SummaryGeneratingListener();
        LauncherFactory.create().execute(LauncherDiscoveryRequestBuilder.request().selectors(selectClass(tests)).build(), listener);
        assertEquals(closed, CLOSED);
        return listener.getSummary().getFailures().stream().map(it -> it.getException().getMessage()).collect(Collectors.joining());
    }

    @Test
    void closesEachOnceInItsTurn() {
        assertEquals("throws 2", faultsOf(Failing.class,
                List.of("last", "junit's 4", "put over another", "throws 2", "needs another", "junit's 3", "needed", "junit's 2", "throws 1", "junit's 1")));
        assertEquals("", faultsOf(Waiting.class, List.of("earlier", "late")));
    }
}
