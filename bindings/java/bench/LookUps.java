import extensionstore.Context;
import extensionstore.Contexts;
import extensionstore.Key;
import extensionstore.Limits;
import extensionstore.Namespace;
import extensionstore.Store;
import java.lang.management.ManagementFactory;
import java.lang.management.ThreadMXBean;
import java.util.ArrayList;
import java.util.List;
import java.util.Locale;
import java.util.concurrent.CountDownLatch;
import java.util.function.Supplier;

/**
 * What a look-up costs in Java whose value stands at the root, through contexts below one another: in our store, or in JUnit's own, by the class
 * {@code Peer} of bench/junit.
 *
 * <p>It takes the words PEER CASE THREADS ROUNDS MILLIS, where PEER is java, key (with a {@code Key} for the name) or junit and CASE is such as get-root-4, and prints a line "PEER CASE THREADS WALL
 * PROCESSOR" for each round, in nanoseconds an operation. A round that is not counted comes first, as long as in {@code Peer}.
 */
final class LookUps {
    private static final int LOOKS = 200_000;
    private static final ThreadMXBean THREADS = ManagementFactory.getThreadMXBean();

    private static Supplier<Object> ours(int contexts, Object key) {
        List<String> ids = new ArrayList<>();
        for (int at = 0; at < contexts; at++) {
            ids.add(at == 0 ? "[engine:x]" : ids.get(at - 1) + "/[level:" + at + "]");
        }
        Contexts opened = Contexts.open(Limits.USUAL, ids);
        opened.root().getStore(Namespace.GLOBAL).put("key0", "value");
        List<Context> all = opened.all();
        Store deepest = all.get(all.size() - 1).getStore(Namespace.GLOBAL);
        return () -> deepest.get(key);
    }

    private static Supplier<Object> junits(int contexts) throws ReflectiveOperationException {
        Peer.Contexts opened = new Peer.Contexts(Peer.chain(contexts));
        opened.stores[0].put("key0", "value");
        var deepest = opened.deepest();
        return () -> deepest.get("key0");
    }

    /** Wall and processor time of a thread's look-ups, in nanoseconds. */
    private static long[] measured(Supplier<Object> look) {
        boolean right = true;
        long processor = THREADS.getCurrentThreadCpuTime();
        long wall = System.nanoTime();
        for (int at = 0; at < LOOKS; at++) {
            right &= look.get() == "value";
        }
        long[] spent = {System.nanoTime() - wall, THREADS.getCurrentThreadCpuTime() - processor};
        if (!right) {
            throw new IllegalStateException("a look-up has a wrong answer");
        }
        return spent;
    }

    /** The mean of a round, on so many threads. */
    static double[] round(Supplier<Object> look, int threads, long millis) throws InterruptedException {
        long[] sum = new long[3];
        CountDownLatch gate = new CountDownLatch(threads);
        List<Thread> all = new ArrayList<>();
        for (int thread = 0; thread < threads; thread++) {
            Thread one = new Thread(() -> {
                gate.countDown();
                long wall = 0;
                while (wall < millis * 1_000_000) {
                    long[] spent = measured(look);
                    wall += spent[0];
                    synchronized (sum) {
                        sum[0] += spent[0];
                        sum[1] += spent[1];
                        sum[2] += LOOKS;
                    }
                }
            });
            all.add(one);
            one.start();
        }
        for (Thread one : all) {
            one.join();
        }
        return new double[] {(double) sum[0] / sum[2], (double) sum[1] / sum[2]};
    }

    public static void main(String[] words) throws Exception {
        if (words.length != 5 || !words[1].startsWith("get-root-")) {
            System.err.println("usage: LookUps java|key|junit get-root-N THREADS ROUNDS MILLIS");
            System.exit(2);
        }
        int contexts = Integer.parseInt(words[1].substring("get-root-".length()));
        int threads = Integer.parseInt(words[2]);
        long millis = Long.parseLong(words[4]);
        Supplier<Object> look = switch (words[0]) {
            case "java" -> ours(contexts, "key0");
            case "key" -> ours(contexts, Key.of("key0"));
            default -> junits(contexts);
        };
        round(look, threads, Peer.WARM_MILLIS);
        for (int at = 0; at < Integer.parseInt(words[3]); at++) {
            double[] spent = round(look, threads, millis);
            System.out.printf(Locale.ROOT, "%s %s %d %.1f %.1f%n", words[0], words[1], threads, spent[0], spent[1]);
        }
    }
}
