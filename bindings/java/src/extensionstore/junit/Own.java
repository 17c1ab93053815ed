package extensionstore.junit;

import extensionstore.CloseableResource;
import extensionstore.Contexts;
import extensionstore.Key;
import extensionstore.Limits;
import extensionstore.Store;
import extensionstore.StoreException;
import java.lang.ref.WeakReference;
import java.util.ArrayList;
import java.util.Arrays;
import java.util.List;
import java.util.Optional;
import java.util.function.Supplier;
import org.junit.jupiter.api.extension.ExtensionContext;
import org.junit.jupiter.api.extension.ExtensionContext.Namespace;
import org.junit.jupiter.api.extension.ExtensionContextException;

/**
 * What one of JUnit's contexts has: a proved store, from when something is stored until JUnit closes the context. Where that one has no number left for a key a
 * next store is opened behind it. So each key stands in one store alone: the first that took it.
 */
final class Own implements ExtensionContext.Store.CloseableResource, AutoCloseable { // both: JUnit 5.13 warns of the first alone
    private static final Namespace NAMESPACE = Namespace.create(ProvedStore.class);
    private static final String NUMBERS = "extensionstore.numbers";
    private static final int NUMBERS_OF_ROOT = 262_143;
    private static final int NUMBERS_OF_CLASS = 65_535;
    private static final int NUMBERS_OF_METHOD = 4_095;
    private static final int MOST_NUMBERS = 1_048_575;
    private static final int KEYS = 64;
    private static final int MOST_KEYS = 1_024;
    private static final Limits LEAST = new Limits(1, 1, 1, 1, false, false);

    /** Since JUnit 5.13, which closes what is {@code AutoCloseable}, too. */
    private static final boolean HAS_SCOPES = isThere(ExtensionContext.class.getName() + "$StoreScope");

    private static final String CLOSES_ALL = "junit.jupiter.extensions.store.close.autocloseable.enabled";

    /** Null as a value, which ends a look-up. */
    private enum Nothing {
        HERE
    }

    /** A context for which a thread asked, and what it has. JUnit hands one object of a context to all callbacks of a test. */
    private record Asked(WeakReference<ExtensionContext> context, WeakReference<Own> own) {
        Asked(ExtensionContext context, Own own) {
            this(new WeakReference<>(context), new WeakReference<>(own));
        }
    }

    /** The last two of a thread, since many extensions ask for a context and its root in turn. */
    private static final ThreadLocal<Asked[]> LAST = ThreadLocal.withInitial(() -> new Asked[2]);

    private final Own above;
    private final ExtensionContext.Store junits;
    private final boolean closesAll;
    private final Optional<Integer> asked; // by the configuration, which is one for the whole run
    private final int numbers;
    private final List<Contexts> opened = new ArrayList<>(); // by the lock `this`
    private volatile Store[] stores = {};
    private volatile boolean closed;

    private Own(ExtensionContext context) {
        above = context.getParent().map(Own::kept).orElse(null);
        junits = context.getStore(NAMESPACE);
        closesAll = above != null ? above.closesAll : HAS_SCOPES && context.getConfigurationParameter(CLOSES_ALL).map(Boolean::valueOf).orElse(true);
        asked = above != null ? above.asked : context.getConfigurationParameter(NUMBERS).map(Own::asked);
        numbers = asked.orElse(above == null ? NUMBERS_OF_ROOT : context.getTestMethod().isPresent() ? NUMBERS_OF_METHOD : NUMBERS_OF_CLASS);
    }

    private static int asked(String text) {
        int asked = text.matches("[0-9]{1,7}") ? Integer.parseInt(text) : 0;
        if (asked < 1 || asked > MOST_NUMBERS) {
            throw new ExtensionContextException("the configuration parameter " + NUMBERS + " is " + text + ", and not 1 to " + MOST_NUMBERS);
        }
        return asked;
    }

    private static boolean isThere(String name) {
        try {
            Class.forName(name, false, ExtensionContext.class.getClassLoader());
            return true;
        } catch (ClassNotFoundException absent) {
            return false;
        }
    }

    /** That of the context. */
    static Own of(ExtensionContext context) {
        Asked[] last = LAST.get();
        for (Asked each : last) {
            Own own = each != null && each.context().get() == context ? each.own().get() : null;
            if (own != null) {
                return own;
            }
        }
        Own own = kept(context);
        last[1] = last[0];
        last[0] = new Asked(context, own);
        return own;
    }

    // JUnit keeps it for the context, and closes it with it.
    private static Own kept(ExtensionContext context) {
        return context.getStore(NAMESPACE).getOrComputeIfAbsent(context.getUniqueId(), id -> new Own(context), Own.class);
    }

    /** What stands nearest, as it is stored; null where nothing does. */
    Object found(Key name) {
        Object found = null;
        for (Own at = this; at != null && found == null; at = at.above) {
            found = at.standing(name);
        }
        return found;
    }

    private Object standing(Key name) {
        if (closed && stores.length == 0) {
            opened(0); // which refuses
        }
        Object found = null;
        Store[] all = stores;
        for (int at = 0; at < all.length && found == null; at++) {
            found = all[at].get(name);
        }
        return found;
    }

    /** What stands here, or the creator's value, as it is stored. */
    Object computed(Key name, Supplier<Object> creator) {
        try {
            return storeFor(name).getOrComputeIfAbsent(name, it -> stored(creator.get()));
        } catch (StoreException refused) {
            throw told(refused);
        }
    }

    void put(Key name, Object value) {
        Object stored = stored(value);
        try {
            letGo(storeFor(name).put(name, stored));
        } catch (StoreException refused) {
            throw told(refused);
        }
    }

    /** Takes out what stands here, and answers its value. */
    Object remove(Key name) {
        return value(letGo(taken(name)));
    }

    private Object taken(Key name) {
        if (closed && stores.length == 0) {
            opened(0);
        }
        Object taken = null;
        Store[] all = stores;
        for (int at = 0; at < all.length && taken == null; at++) {
            taken = all[at].remove(name);
        }
        return taken;
    }

    /** Takes out a null that stands here. What another thread has put in its place meanwhile is put there again. */
    void removeNull(Key name) {
        Object taken = standing(name) == Nothing.HERE ? taken(name) : null;
        if (taken != null && taken != Nothing.HERE) {
            letGo(storeFor(name).put(name, taken));
        }
    }

    /** The value of what is stored. */
    static Object value(Object stored) {
        if (stored instanceof Resource resource) {
            return resource.value();
        }
        return stored == Nothing.HERE ? null : stored;
    }

    private Object stored(Object value) {
        if (value instanceof ExtensionContext.Store.CloseableResource || closesAll && value instanceof AutoCloseable) {
            Resource resource = new Resource(this, value);
            inJUnits(() -> junits.put(resource, resource));
            return resource;
        }
        return value == null ? Nothing.HERE : value;
    }

    // What stands here no more, JUnit need not close.
    private Object letGo(Object stored) {
        if (stored instanceof Resource) {
            inJUnits(() -> junits.remove(stored));
        }
        return stored;
    }

    // Where JUnit has begun to close its store, that may refuse all. A resource that stands here alone is closed with this; one that stands there alone
    // closes nothing.
    private void inJUnits(Runnable call) {
        try {
            if (!closed) {
                call.run();
            }
        } catch (RuntimeException isClosed) {
            return;
        }
    }

    // The refusal, by the value and with the parameter that are the caller's.
    private StoreException told(StoreException refused) {
        String message = refused.getMessage();
        Object value = letGo(refused.getValue());
        boolean isMet = refused.isOutOfNumbers() && !message.contains(NUMBERS);
        if (!isMet && value(value) == value) {
            return refused;
        }
        return refused.told(isMet ? message + "; the configuration parameter " + NUMBERS + " is " + numbers : message, value(value));
    }

    private Store storeFor(Key name) {
        for (int at = 0; ; at++) {
            Store store = at < stores.length ? stores[at] : opened(at);
            if (store.takes(name)) {
                return store;
            }
        }
    }

    private synchronized Store opened(int at) {
        if (at == stores.length) {
            Contexts more = Contexts.open(closed ? LEAST : limits(at), List.of("[context:it]"), Own::remaining);
            if (closed) {
                more.close();
            }
            opened.add(more);
            Store[] all = Arrays.copyOf(stores, at + 1);
            all[at] = more.root().getStore(extensionstore.Namespace.GLOBAL);
            stores = all;
        }
        return stores[at];
    }

    private Limits limits(int at) {
        return new Limits(15, 64, numbers, above == null || at > 0 ? MOST_KEYS : KEYS, numbers > NUMBERS_OF_CLASS, true);
    }

    private static CloseableResource remaining(Object stored) {
        return stored instanceof Resource resource ? resource.remaining() : null;
    }

    private synchronized List<Contexts> opened() {
        return List.copyOf(opened);
    }

    /** When no creator runs here any more: nothing more is stored, and it is known which resources stand here. */
    void seal() {
        for (Contexts each : opened()) {
            each.root().seal();
        }
    }

    @Override
    public void close() {
        seal();
        synchronized (this) {
            closed = true;
        }
        closeFrom(opened(), 0);
    }

    @SuppressWarnings("try")
    private static void closeFrom(List<Contexts> all, int at) {
        if (at < all.size()) {
            try (Contexts each = all.get(at)) {
                closeFrom(all, at + 1);
            }
        }
    }
}
