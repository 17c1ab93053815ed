import static org.junit.platform.engine.discovery.DiscoverySelectors.selectClass;

import extensionstore.Key;
import extensionstore.junit.ProvedStore;
import java.util.ArrayList;
import java.util.Arrays;
import java.util.List;
import java.util.Locale;
import java.util.function.Supplier;
import org.junit.jupiter.api.Nested;
import org.junit.jupiter.api.RepeatedTest;
import org.junit.jupiter.api.extension.BeforeEachCallback;
import org.junit.jupiter.api.extension.ExtendWith;
import org.junit.jupiter.api.extension.ExtensionContext;
import org.junit.jupiter.api.extension.ExtensionContext.Namespace;
import org.junit.jupiter.api.extension.ExtensionContext.Store;
import org.junit.platform.launcher.core.LauncherDiscoveryRequestBuilder;
import org.junit.platform.launcher.core.LauncherFactory;

/**
 * What an extension pays in a test on JUnit's engine, 4 or 16 contexts deep, each of which stores something: the look-up of a value of the root by
 * {@code ProvedStore.of} and {@code get}, or by JUnit's {@code getStore} and {@code get}; and a test's first look-up and first put.
 *
 * <p>It takes the words PEER CASE THREADS ROUNDS MILLIS. PEER is java, key (with a {@code Key} for the name) or junit. CASE is get, first-get or first-put
 * with -4 or -16. Of get it prints the lines of {@code LookUps}. Of the others ROUNDS lines of the middle one of the last {@link #COUNTED} tests, in turn, in
 * nanoseconds by the clock.
 */
final class InTests {
    static final int TESTS = 6_000;
    static final int COUNTED = 2_000;
    private static final Namespace NAMESPACE = Namespace.create(InTests.class);
    private static final Key KEY = Key.of("key0");
    private static final List<Long> SPENT = new ArrayList<>();
    private static String[] words;

    /** A class of JUnit's context below the root's. */
    @ExtendWith(Measure.class)
    static class Deep4 {
        @RepeatedTest(TESTS)
        void test() {}
    }

    static class Deep16 {
        @Nested class C3 { @Nested class C4 { @Nested class C5 { @Nested class C6 { @Nested class C7 { @Nested class C8 {
            @Nested class C9 { @Nested class C10 { @Nested class C11 { @Nested class C12 { @Nested class C13 { @Nested class C14 extends Deep4 {}}}}}}
        }}}}}}
    }

    /** The store of the context, as its words have it. */
    private static Store store(ExtensionContext context) {
        return words[0].equals("junit") ? context.getStore(NAMESPACE) : ProvedStore.of(context, NAMESPACE);
    }

    private static Supplier<Object> look(ExtensionContext context) {
        return switch (words[0]) {
            case "java" -> () -> ProvedStore.of(context, NAMESPACE).get("key0");
            case "key" -> () -> ProvedStore.of(context, NAMESPACE).get(KEY);
            default -> () -> context.getStore(NAMESPACE).get("key0");
        };
    }

    static final class Measure implements BeforeEachCallback {
        private static int tests;

        @Override
        public void beforeEach(ExtensionContext context) throws InterruptedException {
            boolean isFirst = tests++ == 0;
            if (isFirst) {
                store(context.getRoot()).put("key0", "value");
                context.getParent().ifPresent(Measure::fill);
            }
            if (words[1].startsWith("get-")) {
                if (isFirst) {
                    fill(context);
                    warm(context);
                }
                return;
            }
            boolean puts = words[1].startsWith("first-put-");
            Supplier<Object> look = look(context);
            long begun = System.nanoTime();
            if (puts) {
                store(context).put("own", "value");
            } else if (look.get() != "value") {
                throw new IllegalStateException("a look-up has a wrong answer");
            }
            SPENT.add(System.nanoTime() - begun);
        }

        // Something of each context, up to the root.
        private static void fill(ExtensionContext context) {
            store(context).put("own", "value");
            context.getParent().ifPresent(Measure::fill);
        }

        private static void warm(ExtensionContext context) throws InterruptedException {
            int threads = Integer.parseInt(words[2]);
            LookUps.round(look(context), threads, Peer.WARM_MILLIS);
            for (int at = 0; at < Integer.parseInt(words[3]); at++) {
                print(LookUps.round(look(context), threads, Long.parseLong(words[4])));
            }
        }
    }

    private static void print(double... spent) {
        System.out.printf(Locale.ROOT, "%s %s %s %.1f %.1f%n", words[0], words[1], words[2], spent[0], spent[1]);
    }

    public static void main(String[] given) {
        words = given;
        if (words.length != 5 || !words[1].matches("(first-)?get-(4|16)|first-put-(4|16)")) {
            System.err.println("usage: InTests java|key|junit [first-]get-4|16|first-put-4|16 THREADS ROUNDS MILLIS");
            System.exit(2);
        }
        var request = LauncherDiscoveryRequestBuilder.request().selectors(selectClass(words[1].endsWith("-16") ? Deep16.class : Deep4.class)).build();
        LauncherFactory.create().execute(request);
        if (!SPENT.isEmpty()) {
            long[] last = SPENT.subList(SPENT.size() - COUNTED, SPENT.size()).stream().mapToLong(it -> it).sorted().toArray();
            print(last[COUNTED / 2], last[COUNTED / 2]);
        }
    }
}
