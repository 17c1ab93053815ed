package extensionstore;

/**
 * The calls of the static library, as native/extension_store.c has them.
 *
 * <p>An answer is a code above 32 bits of a handle, a lane, a key, a context or a count. No number of a context or a key is below 0.
 */
final class Native {
    static final int DONE = 0;
    static final int ABSENT = 1;
    static final int RUN = 3;
    static final int BUSY = 5;
    static final int CLOSED = 6;
    static final int CONTENDED = 7;
    static final int DIRECTORY_FULL = 9;
    static final int NUMBERS_FULL = 10;
    static final int UNSHOWN = 13;
    static final int CLAIMING = 15;

    /** What each code means, for those that become an exception. */
    private static final String[] MEANINGS = {
        null, null, null, null, null, null, "the context is closed or is being closed", null, "too many changes at this place", "other keys have all of this store's numbers for keys",
        "all numbers of the store were drawn", "no memory", "a place did not take the value or the key", "the handle of what was met was not found", null, null,
        null, null, null, null, "the store has no such context", null, "a limit is out of its range", null, null, "a text is no unique id", "the ids are no tree",
        "there are too many contexts",
    };

    private Native() {}

    /** The version of the library: of 1.2.3 it is 10203. */
    static native int version();

    static native long open(byte[] bytes, int[] lengths, int tries, int numbers, int keys, boolean large, int lanes);

    static native void leave(long store);

    static native void free(long store);

    static native long key(long store, int hint, int name);

    static native long get(long store, int hint, int context, int key);

    static native long put(long store, int hint, int context, int key, int handle);

    static native long remove(long store, int hint, int context, int key);

    static native long begin(long store, int hint, int within, int context, int key);

    static native long fill(long store, int lane, int handle);

    static native long abandon(long store, int lane);

    static native long close(long store, int context, int[] handles);

    static int code(long answer) {
        return (int) (answer >>> 32);
    }

    static int what(long answer) {
        return (int) answer;
    }

    /** What a code means that is a refusal. */
    static String meaning(int code) {
        String meaning = code >= 0 && code < MEANINGS.length ? MEANINGS[code] : null;
        return meaning == null ? "the library answers the code " + code + ", which never comes" : meaning;
    }
}
