package extensionstore.junit;

import extensionstore.Contexts;
import extensionstore.Key;
import extensionstore.StoreException;
import java.lang.System.Logger.Level;
import java.lang.invoke.MethodType;
import java.util.Optional;
import java.util.concurrent.atomic.AtomicBoolean;
import java.util.function.Function;
import org.junit.jupiter.api.extension.ExtensionContext;
import org.junit.jupiter.api.extension.ExtensionContext.Namespace;
import org.junit.jupiter.api.extension.ExtensionContext.Store;
import org.junit.jupiter.api.extension.ExtensionContextException;
import org.junit.platform.commons.PreconditionViolationException;

/**
 * JUnit's {@code Store} over the proved one, for extensions: {@code ProvedStore.of(context, namespace)} in place of {@code context.getStore(namespace)}. What is
 * stored by the one is not seen by the other.
 *
 * <p>Each of JUnit's contexts in which something is stored has a proved store of its own. A look-up asks the stores one after another, the nearest first, as
 * JUnit's does. JUnit closes each resource with its context: after those that were stored later, here or in JUnit's own store. A value whose creator asks for
 * another is the later one, where in JUnit's own store the other is.
 *
 * <p>A resource is what implements {@code CloseableResource}; since JUnit 5.13 also what is {@code AutoCloseable}, unless JUnit's configuration parameter
 * {@code junit.jupiter.extensions.store.close.autocloseable.enabled} is false.
 *
 * <p>From the close of the first resource on nothing more is stored or removed in the context. What is refused is refused by a {@link StoreException}; so is
 * each call after the context was closed. The close waits while a creator runs for the context, as JUnit does.
 *
 * <p>Creators that wait for one another, each for what another makes, are refused; not so where one of them waits for JUnit's own store, or for a lock.
 *
 * <p>A context of a test method stores 4,095 values, a class's 65,535 and the root 262,143, those that are replaced, removed or refused among them; or as
 * many as the configuration parameter {@code extensionstore.numbers} says, 1 to 1,048,575. Keys have no limit: for each 1,024 more a store is opened, which
 * has as many numbers. A constant {@link Key} stands for its name, and saves a look-up the hash.
 */
public final class ProvedStore implements Store {
    private static final String NONE = "no proved store: ";
    private static final AtomicBoolean WARNED = new AtomicBoolean();

    private final Namespace namespace;
    private final Own own;

    private ProvedStore(Namespace namespace, Own own) {
        this.namespace = namespace;
        this.own = own;
    }

    /**
     * The values of the context in the namespace.
     *
     * @throws ExtensionContextException where no native library fits this machine, which {@link Contexts#unavailable()} tells before; and where
     *     {@code extensionstore.numbers} is out of its range
     */
    public static ProvedStore of(ExtensionContext context, Namespace namespace) {
        given(namespace, "Namespace");
        Contexts.unavailable().ifPresent(why -> {
            throw new ExtensionContextException(NONE + why);
        });
        return new ProvedStore(namespace, Own.of(context));
    }

    /** The same where a native library fits this machine; else JUnit's own store, and the first such call warns in the log of this class. */
    public static Store orJUnits(ExtensionContext context, Namespace namespace) {
        Optional<String> why = Contexts.unavailable();
        if (why.isEmpty()) {
            return of(context, namespace);
        }
        if (!WARNED.getAndSet(true)) {
            System.getLogger(ProvedStore.class.getName()).log(Level.WARNING, NONE + why.get() + "; JUnit's own is used");
        }
        return context.getStore(namespace);
    }

    @Override
    public Object get(Object key) {
        return Own.value(own.found(named(key)));
    }

    @Override
    public <V> V get(Object key, Class<V> requiredType) {
        return cast(named(key), type(requiredType), get(key));
    }

    @Override
    public <K, V> Object getOrComputeIfAbsent(K key, Function<K, V> defaultCreator) {
        Key name = named(key);
        given(defaultCreator, "defaultCreator function");
        Object found = own.found(name);
        return Own.value(found != null ? found : own.computed(name, () -> defaultCreator.apply(key)));
    }

    @Override
    public <K, V> V getOrComputeIfAbsent(K key, Function<K, V> defaultCreator, Class<V> requiredType) {
        Key name = named(key);
        given(defaultCreator, "defaultCreator function");
        return cast(name, type(requiredType), getOrComputeIfAbsent(key, defaultCreator));
    }

    /**
     * JUnit 6's: as {@link #getOrComputeIfAbsent(Object, Function)}, but a null that stands there is as nothing, and the creator's value must not be
     * null.
     */
    public <K, V> Object computeIfAbsent(K key, Function<? super K, ? extends V> defaultCreator) {
        Key name = named(key);
        given(defaultCreator, "defaultCreator function");
        Object value = get(key);
        while (value == null) {
            own.removeNull(name);
            value = Own.value(own.computed(name, () -> given(defaultCreator.apply(key), "the defaultCreator's value")));
        }
        return value;
    }

    /** The same, of a type. */
    public <K, V> V computeIfAbsent(K key, Function<? super K, ? extends V> defaultCreator, Class<V> requiredType) {
        return cast(named(key), type(requiredType), computeIfAbsent(key, defaultCreator));
    }

    @Override
    public void put(Object key, Object value) {
        own.put(named(key), value);
    }

    @Override
    public Object remove(Object key) {
        return own.remove(named(key));
    }

    @Override
    public <V> V remove(Object key, Class<V> requiredType) {
        return cast(named(key), type(requiredType), remove(key));
    }

    // What is null is refused in the order and by the exception of JUnit's own store, and nothing is done then.
    private static <T> T given(T it, String name) {
        if (it == null) {
            throw new PreconditionViolationException(name + " must not be null");
        }
        return it;
    }

    private Key named(Object key) {
        return Key.in(namespace, given(key, "key"));
    }

    private static <V> Class<V> type(Class<V> required) {
        return given(required, "requiredType");
    }

    @SuppressWarnings("unchecked")
    private static <V> V cast(Key name, Class<V> type, Object value) {
        Class<?> wanted = type.isPrimitive() ? MethodType.methodType(type).wrap().returnType() : type;
        if (value != null && !wanted.isInstance(value)) {
            throw new ExtensionContextException("Object stored under key [" + name + "] is not of required type [" + type.getName() + "]");
        }
        return (V) value;
    }
}
