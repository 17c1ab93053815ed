import extensionstore.Contexts;
import extensionstore.Limits;
import extensionstore.Namespace;
import extensionstore.Store;
import java.util.ArrayList;
import java.util.List;
import java.util.Objects;
import java.util.concurrent.Callable;
import java.util.concurrent.CountDownLatch;
import java.util.concurrent.ExecutorService;
import java.util.concurrent.Executors;
import java.util.concurrent.Future;
import java.util.concurrent.TimeUnit;
import java.util.function.IntConsumer;

/** A store of an engine, a class and two methods, and what the tests ask of it. */
abstract class OverContexts {
    static final List<String> IDS = List.of("[engine:x]", "[engine:x]/[class:A]", "[engine:x]/[class:A]/[method:a()]", "[engine:x]/[class:A]/[method:b()]");

    final Contexts contexts = Contexts.open(Limits.USUAL, IDS);
    final Store engine = store(0);
    final Store inClass = store(1);
    final Store first = store(2);
    final Store second = store(3);

    private Store store(int context) {
        return contexts.all().get(context).getStore(Namespace.GLOBAL);
    }

    static void equal(Object answer, Object wanted) {
        if (!Objects.equals(answer, wanted)) {
            throw new AssertionError(answer + ", wanted is " + wanted);
        }
    }

    static <T extends Throwable> T thrown(Class<T> type, Callable<?> call) {
        Object answer;
        try {
            answer = call.call();
        } catch (Throwable fault) {
            if (!type.isInstance(fault)) {
                throw new AssertionError(fault);
            }
            return type.cast(fault);
        }
        throw new AssertionError("it answers " + answer);
    }

    static Callable<Void> ran(Runnable body) {
        return () -> {
            body.run();
            return null;
        };
    }

    /** Runs the bodies at once, and throws what one of them throws. */
    static void together(int threads, IntConsumer body) throws Exception {
        ExecutorService pool = Executors.newFixedThreadPool(threads);
        CountDownLatch gate = new CountDownLatch(threads);
        List<Future<?>> all = new ArrayList<>();
        for (int thread = 0; thread < threads; thread++) {
            int own = thread;
            all.add(pool.submit(() -> {
                gate.countDown();
                gate.await();
                body.accept(own);
                return null;
            }));
        }
        for (Future<?> one : all) {
            one.get(60, TimeUnit.SECONDS);
        }
        pool.shutdown();
    }

    static void await(CountDownLatch latch) {
        try {
            latch.await();
        } catch (InterruptedException late) {
            throw new IllegalStateException(late);
        }
    }

    static void sleep() {
        try {
            Thread.sleep(30);
        } catch (InterruptedException late) {
            throw new IllegalStateException(late);
        }
    }

    static void join(Thread thread, long millis) {
        try {
            thread.join(millis);
        } catch (InterruptedException late) {
            throw new IllegalStateException(late);
        }
    }
}
