import extensionstore.CloseableResource;
import extensionstore.Context;
import extensionstore.Contexts;
import extensionstore.Key;
import extensionstore.Limits;
import extensionstore.Namespace;
import extensionstore.Store;
import extensionstore.StoreException;
import java.io.IOException;
import java.util.ArrayList;
import java.util.List;
import java.util.concurrent.Callable;
import java.util.concurrent.atomic.AtomicInteger;

/** What the calls answer, on one thread. */
final class StoreTest extends OverContexts {
    void refusedOpenings() {
        equal(refused(new Limits(0, 64, 10, true), IDS), "not opened: a limit is out of its range");
        equal(refused(new Limits(16, 64, 10, true), IDS), "not opened: a limit is out of its range");
        equal(refused(new Limits(1, 65, 10, true), IDS), "not opened: a limit is out of its range");
        equal(refused(new Limits(1, 64, 65_536, true), IDS), "not opened: a limit is out of its range");
        equal(refused(new Limits(1, 64, 10, 0, false, true), IDS), "not opened: a limit is out of its range");
        equal(refused(new Limits(1, 64, 10, 1_025, false, true), IDS), "not opened: a limit is out of its range");
        equal(refused(new Limits(32, 64, 10, 64, true, true), IDS), "not opened: a limit is out of its range");
        equal(refused(new Limits(1, 64, 1_048_576, 64, true, true), IDS), "not opened: a limit is out of its range");
        equal(refused(Limits.USUAL, List.of()), "not opened: the ids are no tree");
        equal(refused(Limits.USUAL, List.of("engine")), "not opened: a text is no unique id");
        List<String> many = new ArrayList<>(List.of("[engine:x]"));
        for (int at = 0; at < 256; at++) {
            many.add("[engine:x]/[class:" + at + "]");
        }
        equal(refused(Limits.USUAL, many), "not opened: there are too many contexts");
    }

    private static String refused(Limits limits, List<String> ids) {
        return thrown(StoreException.class, () -> Contexts.open(limits, ids)).getMessage();
    }

    void contextsByTheirIds() {
        Context method = contexts.context("[engine:x]/[class:A]/[method:a()]");
        equal(method.getParent().get().getUniqueId(), "[engine:x]/[class:A]");
        equal(method.getRoot().getParent().isPresent(), false);
        thrown(StoreException.class, () -> contexts.context("[engine:y]"));
    }

    void nearestValueWins() {
        equal(first.get("server"), null);
        equal(engine.put("server", "one"), null);
        equal(first.get("server"), "one");
        equal(inClass.put("server", "two"), null);
        equal(first.get("server"), "two");
        equal(engine.get("server"), "one");
        equal(first.remove("server"), null);
        equal(inClass.put("server", "three"), "two");
        equal(inClass.remove("server"), "three");
        equal(first.get("server"), "one");
    }

    void aKeyStandsForItsName() {
        Key key = Key.of("server");
        Namespace other = Namespace.create("other");
        equal(Key.of(key) == key, true);
        equal(first.get(key), null);
        engine.put("server", "one");
        equal(first.get(key), "one");
        equal(contexts.root().getStore(other).put(key, "other's"), null);
        equal(contexts.root().getStore(Namespace.create("other")).get("server"), "other's");
        equal(first.get(key), "one");
        equal(first.getOrComputeIfAbsent(key, it -> it == key ? "two" : "wrong"), "one");
        equal(first.remove(key), null);
        equal(engine.remove(key), "one");
        equal(first.getOrComputeIfAbsent(key, it -> it == key ? "two" : "wrong"), "two");
        equal(first.get("server"), "two");
        equal(thrown(StoreException.class, () -> first.get(key, Integer.class)).getMessage(),
                "Object stored under key [server] is not of required type [java.lang.Integer]");
        thrown(NullPointerException.class, () -> Key.of(null));
    }

    void aKeyRemembersOneStore() {
        Key[] keys = {Key.of("a"), Key.of("b"), Key.of("c")};
        for (int at = 0; at < 100; at++) {
            try (Contexts one = Contexts.open(Limits.USUAL, IDS); Contexts two = Contexts.open(Limits.USUAL, IDS)) {
                Store[] stores = {one.root().getStore(Namespace.GLOBAL), two.root().getStore(Namespace.GLOBAL)};
                for (int turn = 0; turn < 6; turn++) { // so that the keys have other numbers in the other store
                    stores[turn % 2].put(keys[turn % 3], turn);
                }
                for (int turn = 0; turn < 6; turn++) {
                    equal(stores[turn % 2].get(keys[turn % 3]), turn);
                    equal(stores[turn % 2].get(keys[turn % 3].toString()), turn);
                }
            }
        }
    }

    void nullIsAValue() {
        engine.put("key", null);
        equal(first.getOrComputeIfAbsent("key", it -> "made"), null);
        equal(engine.remove("key"), null);
        equal(first.getOrComputeIfAbsent("key", it -> "made"), "made");
    }

    void nothingElseMayBeNull() {
        engine.put("key", "stands");
        thrown(NullPointerException.class, () -> contexts.root().getStore(null));
        for (Callable<?> call : List.<Callable<?>>of(
                () -> engine.get(null), () -> engine.put(null, 1), () -> engine.remove(null), () -> engine.getOrComputeIfAbsent(null, it -> 1),
                () -> engine.get("key", null), () -> engine.remove("key", null), () -> engine.getOrComputeIfAbsent("key", null),
                () -> engine.getOrComputeIfAbsent("other", null), () -> engine.getOrComputeIfAbsent("other", it -> 1, null))) {
            thrown(NullPointerException.class, call);
        }
        equal(engine.get("key"), "stands");
        equal(engine.get("other"), null);
        equal(engine.getOrComputeIfAbsent("other", it -> "made"), "made"); // no fault is kept
    }

    void namespacesKeepKeysApart() {
        Context root = contexts.root();
        Store one = root.getStore(Namespace.create("a", "b"));
        Store other = root.getStore(Namespace.create("b", "a"));
        one.put(1, "one");
        other.put(1, "other");
        engine.put(1, "global");
        equal(root.getStore(Namespace.create("a").append("b")).get(1), "one");
        equal(other.get(1), "other");
        equal(engine.get(1), "global");
        thrown(IllegalArgumentException.class, () -> Namespace.create());
    }

    void valuesOfAType() {
        engine.put("number", 42);
        equal(first.get("number", int.class), 42);
        equal(first.get("number", Integer.class), 42);
        equal(first.getOrDefault("number", Integer.class, 7), 42);
        equal(first.getOrDefault("other", Integer.class, 7), 7);
        equal(thrown(StoreException.class, () -> first.get("number", String.class)).getMessage(),
                "Object stored under key [number] is not of required type [java.lang.String]");
        equal(first.getOrComputeIfAbsent("text", it -> it + "!", String.class), "text!");
        equal(first.getOrComputeIfAbsent(ArrayList.class).size(), 0);
    }

    void only64Keys() {
        for (int key = 0; key < 64; key++) {
            engine.put(key, key);
        }
        equal(first.get("one more"), null);
        equal(thrown(StoreException.class, () -> engine.put("one more", 1)).getMessage(), "other keys have all of this store's numbers for keys: one more");
        equal(first.get(63), 63);
    }

    void keysUpToTheLimit() {
        for (int keys : new int[] {1, 65, 1_024}) {
            int places = (keys + 31) / 32 * 32;
            Contexts many = Contexts.open(new Limits(2, 64, 2_000, keys, false, true), IDS);
            Store store = many.root().getStore(Namespace.GLOBAL);
            for (int key = 0; key < places; key++) {
                store.put(key, key);
                if (key < places - 96) {
                    store.remove(key); // of 1,024 values a close takes long over a library that is not optimized
                }
            }
            equal(thrown(StoreException.class, () -> store.put("one more", 1)).getMessage(),
                    "other keys have all of this store's numbers for keys: one more");
            equal(store.get(places - 1), places - 1);
            List<Object> closed = new ArrayList<>();
            many.root().closeBy(it -> closed.add(it));
            equal(closed, List.of());
            equal(thrown(StoreException.class, () -> store.get(places - 1)).getMessage(), "the context is closed or is being closed: " + (places - 1));
        }
    }

    void largeStore() throws IOException {
        List<String> ids = new ArrayList<>(List.of("[engine:x]"));
        for (int at = 1; at < 65_536; at++) {
            ids.add("[engine:x]/[m:" + at + "]");
        }
        List<Object> closed = new ArrayList<>();
        Contexts large = Contexts.open(new Limits(31, 64, 1_048_575, 32, true, true), ids);
        Context last = large.context("[engine:x]/[m:65535]");
        last.getStore(Namespace.GLOBAL).put("own", (CloseableResource) () -> closed.add("own"));
        large.root().getStore(Namespace.GLOBAL).put("shared", 7);
        equal(last.getStore(Namespace.GLOBAL).get("shared"), 7);
        equal(large.context("[engine:x]/[m:65534]").getStore(Namespace.GLOBAL).get("own"), null);
        last.close();
        equal(closed, List.of("own"));
        ids.add("[engine:x]/[m:0]");
        equal(refused(new Limits(31, 64, 10, 32, true, true), ids), "not opened: there are too many contexts");
    }

    void refusedPutHandsItsValueBack() {
        Object value = new Object();
        equal(refusedPut(() -> inClass.getOrComputeIfAbsent("own", it -> inClass.put("own", value))), value);
        for (int key = 0; key < 63; key++) {
            engine.put(key, key);
        }
        equal(refusedPut(() -> engine.put("one more", value)), value);
        contexts.close();
        equal(refusedPut(() -> engine.put(1, value)), value);
        Store few = Contexts.open(new Limits(2, 64, 1, true), IDS).root().getStore(Namespace.GLOBAL);
        for (int time = 0; time < 3_000; time++) { // more than there are handles
            thrown(StoreException.class, () -> few.getOrComputeIfAbsent("own", it -> few.put("own", value)));
        }
        equal(few.put("own", value), null);
        equal(few.get("own"), value);
        equal(refusedPut(() -> few.put("own", value)), value);
    }

    private static Object refusedPut(Callable<?> call) {
        return thrown(StoreException.class, call).getValue();
    }

    void numbersRunOut() {
        Store store = Contexts.open(new Limits(1, 64, 1, true), IDS).root().getStore(Namespace.GLOBAL);
        store.put("one", 1);
        equal(thrown(StoreException.class, () -> store.put("one", 2)).getValue(), 2);
        equal(thrown(StoreException.class, () -> store.getOrComputeIfAbsent("other", it -> 3)).getValue(), 3);
        equal(store.get("one"), 1);
        equal(store.get("other"), null);
    }

    void faultIsKept() {
        RuntimeException fault = new IllegalStateException("as wanted");
        AtomicInteger calls = new AtomicInteger();
        for (int time = 0; time < 2; time++) {
            equal(thrown(IllegalStateException.class, () -> inClass.getOrComputeIfAbsent("server", it -> {
                calls.incrementAndGet();
                throw fault;
            })), fault);
            equal(thrown(IllegalStateException.class, () -> first.get("server")), fault);
        }
        equal(calls.get(), 1);
        equal(inClass.put("server", "up"), null);
        equal(first.get("server"), "up");
    }

    void faultIsNotKept() {
        Contexts forgetting = Contexts.open(new Limits(2, 64, 10, false), IDS);
        Store store = forgetting.root().getStore(Namespace.GLOBAL);
        thrown(IllegalStateException.class, () -> store.getOrComputeIfAbsent("server", it -> {
            throw new IllegalStateException("as wanted");
        }));
        equal(store.getOrComputeIfAbsent("server", it -> "up"), "up");
    }

    void errorIsNotKept() {
        thrown(AssertionError.class, () -> engine.getOrComputeIfAbsent("server", it -> {
            throw new AssertionError("as wanted");
        }));
        equal(engine.getOrComputeIfAbsent("server", it -> "up"), "up");
    }

    private static final class Own {
        private final int number = 7;

        private Own() {}
    }

    void classThatIsNotPublic() {
        Own own = inClass.getOrComputeIfAbsent(Own.class);
        equal(own.number, 7);
        equal(first.get(Own.class), own);
    }

    private static final class Failing {
        private static final AtomicInteger MADE = new AtomicInteger();
        private static Throwable fault;

        private Failing() throws Throwable {
            MADE.incrementAndGet();
            throw fault;
        }
    }

    void faultOfAConstructorIsThrownAsItIs() {
        Failing.fault = new AssertionError("as wanted");
        for (int time = 1; time <= 2; time++) {
            equal(thrown(AssertionError.class, () -> inClass.getOrComputeIfAbsent(Failing.class)), Failing.fault);
            equal(Failing.MADE.get(), time); // an Error is not kept
        }
        Failing.fault = new IOException("as wanted");
        equal(thrown(IOException.class, () -> inClass.getOrComputeIfAbsent(Failing.class)), Failing.fault);
        RuntimeException kept = new IllegalStateException("as wanted");
        Failing.fault = kept;
        equal(thrown(IllegalStateException.class, () -> inClass.getOrComputeIfAbsent(Failing.class)), kept);
        Failing.fault = new AssertionError("not asked for");
        equal(thrown(IllegalStateException.class, () -> inClass.getOrComputeIfAbsent(Failing.class)), kept);
        equal(Failing.MADE.get(), 4);
        thrown(NoSuchMethodException.class, () -> inClass.getOrComputeIfAbsent(Integer.class));
        thrown(InstantiationException.class, () -> inClass.getOrComputeIfAbsent(Number.class));
    }

    void factoriesInsideOneAnother() {
        Store few = Contexts.open(new Limits(3, 64, 100, true), IDS).root().getStore(Namespace.GLOBAL);
        equal(deep(few, 2), "end 1 2");
        String message = thrown(StoreException.class, () -> deep(few, 10)).getMessage();
        equal(message.startsWith("all factories that run wait for one another, or for one of the 3 lanes"), true);
        equal(few.getOrComputeIfAbsent(10, it -> "again"), "again");
    }

    private static Object deep(Store store, int level) {
        return store.getOrComputeIfAbsent(level, it -> level == 0 ? "end" : deep(store, level - 1) + " " + level);
    }

    void factoryThatAsksForItsOwnKey() {
        equal(thrown(StoreException.class, () -> inClass.getOrComputeIfAbsent("server", it -> first.get("server"))).getMessage().startsWith("the factory of a key asks for this key"),
                true);
        thrown(StoreException.class, () -> inClass.getOrComputeIfAbsent("server", it -> inClass.put("server", 1)));
        equal(inClass.getOrComputeIfAbsent("server", it -> engine.get("server")), null);
    }
}
