package extensionstore;

import java.util.ArrayList;
import java.util.List;

/**
 * The factories that run for all stores, by their threads, and the threads that wait for the end of one. For all, since a factory of one store may ask
 * another store.
 */
final class Factories {
    static final Factories ALL = new Factories();

    /** More than the calls take that come between a claim and its end, but for the factory itself. */
    private static final int FRAMES = 200;

    private final ThreadLocal<List<Claim>> own = ThreadLocal.withInitial(ArrayList::new);
    private long ended;
    private int waiting;
    private int running; // threads that run factories, or are about to
    private int stuck; // those of them that have waited since the last end

    /**
     * A place for which a thread runs a factory, or is about to.
     *
     * @param store the store's address
     */
    record Claim(long store, int context, int key) {}

    private Factories() {}

    /** How many factories this thread runs for the store. */
    int ofThisThread(long store) {
        int many = 0;
        for (Claim claim : own.get()) {
            many += claim.store() == store ? 1 : 0;
        }
        return many;
    }

    /** Whether this thread runs the factory of the claim. */
    boolean isOwn(Claim claim) {
        return own.get().contains(claim);
    }

    /** Whether this thread runs a factory for the context. */
    boolean isOwn(long store, int context) {
        return own.get().stream().anyMatch(it -> it.store() == store && it.context() == context);
    }

    /**
     * To be called before a place is claimed, so that a claim that others meet is counted. Where the thread's stack or the memory has no room for what
     * comes until the claim has ended it fails here.
     */
    void begin(Claim claim) {
        deeper(FRAMES);
        List<Claim> mine = own.get();
        mine.add(claim);
        if (mine.size() == 1) {
            runs();
        }
    }

    private static int deeper(int frames) {
        return frames == 0 ? 0 : 1 + deeper(frames - 1);
    }

    private synchronized void runs() {
        running++;
    }

    /** To be called after each {@code begin}: when the claim has ended, or where the place was not claimed. */
    void end(boolean claimed) {
        List<Claim> mine = own.get();
        mine.remove(mine.size() - 1);
        if (claimed || mine.isEmpty()) {
            counted(claimed, mine.isEmpty());
        }
    }

    private synchronized void counted(boolean claimed, boolean last) {
        if (claimed) {
            ended++;
            stuck = 0;
        }
        if (last) {
            running--;
        }
        if (waiting > 0 && (claimed || stuck == running)) {
            notifyAll();
        }
    }

    private synchronized long ended() {
        return ended;
    }

    private synchronized boolean waitPast(long read, boolean runs) {
        boolean interrupted = false;
        waiting++;
        stuck += runs && ended == read ? 1 : 0;
        try {
            while (ended == read && !(runs && stuck == running)) {
                interrupted |= isInterrupted();
            }
            return ended != read;
        } finally {
            waiting--;
            stuck -= runs && ended == read ? 1 : 0; // an end has set it to 0
            if (interrupted) {
                Thread.currentThread().interrupt();
            }
        }
    }

    private boolean isInterrupted() {
        try {
            wait();
            return false;
        } catch (InterruptedException late) {
            return true;
        }
    }

    /** What a call of this thread has seen of the ends, which it waits for. */
    Patience patience() {
        return new Patience(this, !own.get().isEmpty());
    }

    /**
     * What one call has seen of the ends. It reads how many there were, asks, and waits only where it is refused and there was none since. So
     * an end between its asking and its waiting is not missed.
     */
    static final class Patience {
        private final Factories factories;
        private final boolean runs;
        private long read = -1;

        private Patience(Factories factories, boolean runs) {
            this.factories = factories;
            this.runs = runs;
        }

        /**
         * Returns when to ask again; the first time at once, since nothing was read before that asking. False where no end is to come: all
         * threads that run factories wait for one.
         */
        boolean busy() {
            boolean goes = read < 0 || factories.waitPast(read, runs);
            read = factories.ended();
            return goes;
        }
    }
}
