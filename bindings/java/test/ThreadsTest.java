import extensionstore.Contexts;
import extensionstore.Limits;
import extensionstore.Namespace;
import extensionstore.Store;
import extensionstore.StoreException;
import java.util.ArrayList;
import java.util.Collections;
import java.util.List;
import java.util.concurrent.CountDownLatch;
import java.util.concurrent.atomic.AtomicInteger;

/** The calls from several threads. */
final class ThreadsTest extends OverContexts {
    void oneFactoryForAllThreads() throws Exception {
        for (int threads : new int[] {4, 16}) {
            Contexts shared = Contexts.open(Limits.USUAL, IDS);
            AtomicInteger made = new AtomicInteger();
            together(threads, thread -> {
                Store own = shared.all().get(2 + thread % 2).getStore(Namespace.GLOBAL);
                for (int key = 0; key < 60; key++) {
                    int name = key;
                    Store root = shared.root().getStore(Namespace.GLOBAL);
                    equal(root.getOrComputeIfAbsent(key, it -> {
                        made.incrementAndGet();
                        Thread.yield();
                        return name;
                    }), key);
                    equal(own.get(key), key);
                }
            });
            equal(made.get(), 60);
        }
    }

    void whoAsksWaitsForTheFactory() throws Exception {
        CountDownLatch begun = new CountDownLatch(1);
        CountDownLatch go = new CountDownLatch(1);
        together(2, thread -> {
            if (thread == 0) {
                computeOnceTold(inClass, "server", "up", begun, go);
            } else {
                await(begun);
                new Thread(() -> {
                    sleep();
                    go.countDown();
                }).start();
                equal(first.get("server"), "up");
                equal(second.remove("server"), null);
                equal(inClass.put("server", "other"), "up");
            }
        });
    }

    void eachValueIsReplacedOnce() throws Exception {
        List<Object> replaced = Collections.synchronizedList(new ArrayList<>());
        together(8, thread -> {
            for (int round = 0; round < 500; round++) {
                Object stood = inClass.put("over", thread * 500 + round);
                if (stood != null) {
                    replaced.add(stood);
                }
            }
        });
        equal(replaced.size(), 8 * 500 - 1);
        equal(replaced.stream().distinct().count(), 8L * 500 - 1);
    }

    void waitingPutTakesOneNumber() throws Exception {
        Store store = Contexts.open(new Limits(15, 64, 4, false), IDS).root().getStore(Namespace.GLOBAL);
        CountDownLatch begun = new CountDownLatch(1);
        CountDownLatch go = new CountDownLatch(1);
        together(3, thread -> {
            if (thread == 0) {
                computeOnceTold(store, "slow", "made", begun, go);
            } else if (thread == 1) {
                await(begun);
                equal(store.put("slow", "put"), "made");
            } else {
                await(begun);
                for (int end = 0; end < 2_000; end++) {
                    thrown(IllegalStateException.class, () -> store.getOrComputeIfAbsent("other", it -> {
                        throw new IllegalStateException("as wanted");
                    }));
                }
                go.countDown();
            }
        });
        equal(store.put("third", 3), null);
        equal(store.put("fourth", 4), null);
        equal(thrown(StoreException.class, () -> store.put("fifth", 5)).getValue(), 5);
    }

    void lookUpsDoNotWaitForFactoriesOfOtherKeys() throws Exception {
        engine.put("server", "up");
        CountDownLatch begun = new CountDownLatch(12);
        CountDownLatch go = new CountDownLatch(1);
        AtomicInteger looked = new AtomicInteger();
        Thread looking = new Thread(() -> {
            await(begun);
            sleep();
            equal(first.get("server"), "up");
            equal(inClass.getOrComputeIfAbsent("server", it -> "another"), "up");
            equal(inClass.put("beside", 1), null);
            equal(inClass.remove("beside"), 1);
            looked.incrementAndGet();
        });
        looking.start();
        Thread ending = new Thread(() -> {
            join(looking, 5_000);
            go.countDown();
        });
        ending.start();
        together(20, thread -> inClass.getOrComputeIfAbsent("slow " + thread, it -> {
            begun.countDown();
            await(go);
            looked.compareAndSet(0, -1);
            return thread;
        }));
        join(looking, 60_000);
        equal(looked.get(), 1);
    }

    void factoriesInsideOneAnotherOnManyThreads() throws Exception {
        for (int round = 0; round < 20; round++) {
            Contexts shared = Contexts.open(new Limits(15, 64, 100, true), IDS);
            Store store = shared.all().get(1).getStore(Namespace.GLOBAL);
            CountDownLatch begun = new CountDownLatch(12);
            together(20, thread -> equal(store.getOrComputeIfAbsent("outer " + thread, it -> {
                begun.countDown();
                await(begun);
                return store.getOrComputeIfAbsent("inner " + thread, inner -> store.getOrComputeIfAbsent("innermost " + thread, innermost -> thread));
            }), thread));
        }
    }

    void factoriesThatWaitForOneAnother() throws Exception {
        long begin = System.nanoTime();
        for (int round = 0; round < 20; round++) {
            Store store = Contexts.open(new Limits(15, 64, 10, true), IDS).root().getStore(Namespace.GLOBAL);
            CountDownLatch begun = new CountDownLatch(3);
            AtomicInteger refused = new AtomicInteger();
            together(3, thread -> {
                try {
                    equal(store.getOrComputeIfAbsent(thread, it -> {
                        begun.countDown();
                        await(begun);
                        return thread == 0 ? "end" : store.get(thread % 2 + 1);
                    }), thread == 0 ? "end" : null);
                } catch (StoreException refusal) {
                    equal(refusal.getMessage().startsWith("all factories that run wait for one another"), true);
                    refused.incrementAndGet();
                }
            });
            equal(refused.get(), 1);
        }
        equal(System.nanoTime() - begin < 15_000_000_000L, true); // no time limit is waited for
    }

    void factoriesOfTwoStoresThatWaitForOneAnother() throws Exception {
        List<Store> stores = new ArrayList<>();
        for (int each = 0; each < 2; each++) {
            stores.add(Contexts.open(new Limits(15, 64, 10, false), IDS).root().getStore(Namespace.GLOBAL));
        }
        CountDownLatch begun = new CountDownLatch(2);
        AtomicInteger refused = new AtomicInteger();
        together(2, thread -> {
            try {
                stores.get(thread).getOrComputeIfAbsent("key", it -> {
                    begun.countDown();
                    await(begun);
                    return stores.get(1 - thread).getOrComputeIfAbsent("key", other -> "made");
                });
            } catch (StoreException refusal) {
                equal(refusal.getMessage().startsWith("all factories that run wait for one another"), true);
                refused.incrementAndGet();
            }
        });
        equal(refused.get(), 1);
    }

    void callsInAStoreOfOneTry() throws Exception {
        Contexts shared = Contexts.open(new Limits(15, 1, 65_535, true), IDS);
        Store own = shared.all().get(1).getStore(Namespace.GLOBAL);
        together(16, thread -> {
            for (int round = 0; round < 500; round++) {
                int value = round;
                if (round % 2 == 0) {
                    equal(own.getOrComputeIfAbsent(thread, it -> value), value);
                } else {
                    thrown(IllegalStateException.class, () -> own.getOrComputeIfAbsent(thread, it -> {
                        throw new IllegalStateException("as wanted");
                    }));
                }
                equal(own.put(thread, -value), round % 2 == 0 ? value : null);
                equal(own.remove(thread), -value);
                own.getOrComputeIfAbsent("all", it -> "one");
                equal(own.get("all"), "one");
            }
        });
    }

    void stackOverflowLeavesNoClaim() throws Exception {
        IllegalStateException fault = new IllegalStateException("as wanted");
        for (int round = 0; round < 60; round++) {
            int frames = round;
            Store store = Contexts.open(new Limits(15, 64, 10, false), IDS).root().getStore(Namespace.GLOBAL);
            Thread deep = new Thread(null, () -> overflow(frames, store, fault), "deep", 200_000);
            deep.start();
            join(deep, 20_000);
            equal(deep.isAlive(), false);
            together(1, thread -> equal(thrown(IllegalStateException.class, () -> failing(store, fault)), fault));
        }
    }

    private static Object failing(Store store, IllegalStateException fault) {
        return store.getOrComputeIfAbsent("key", it -> {
            throw fault;
        });
    }

    // Computes a value by a factory that tells that it has begun, and ends when it is told to.
    private static void computeOnceTold(Store store, String key, String made, CountDownLatch begun, CountDownLatch go) {
        store.getOrComputeIfAbsent(key, it -> {
            begun.countDown();
            await(go);
            return made;
        });
    }

    // Computes deeper and deeper, after so many frames, until the stack overflows.
    private static int overflow(int frames, Store store, IllegalStateException fault) {
        try {
            return frames == 0 ? computing(store, fault) : 1 + overflow(frames - 1, store, fault);
        } catch (StackOverflowError wanted) {
            return 0;
        }
    }

    private static int computing(Store store, IllegalStateException fault) {
        try {
            failing(store, fault);
        } catch (IllegalStateException wanted) {
            return 1 + computing(store, fault);
        }
        return 0;
    }
}
