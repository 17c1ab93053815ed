package org.junit.jupiter.engine.execution;

import static org.junit.jupiter.engine.support.JupiterThrowableCollectorFactory.createThrowableCollector;
import static org.junit.platform.commons.util.ReflectionUtils.getWrapperType;
import static org.junit.platform.commons.util.ReflectionUtils.isAssignableTo;

import extensionstore.Context;
import extensionstore.Store;
import extensionstore.StoreException;
import java.util.Arrays;
import java.util.List;
import java.util.function.Function;
import java.util.function.Supplier;
import org.junit.jupiter.api.extension.ExtensionContext.Namespace;
import org.junit.jupiter.api.extension.ExtensionContextException;
import org.junit.platform.engine.support.hierarchical.ThrowableCollector;

/**
 * For tests alone: a class of the name and package of JUnit 5.9.2's store, over the proved one, so that JUnit's own tests of its store, and its
 * engine, run over ours.
 *
 * <p>JUnit makes its contexts one by one, and ours are named before the run: so a tree of a fixed shape is opened for each root (class {@link Places}),
 * and a place in it is taken when something is first stored. A look-up before asks the nearest context above that has a place.
 *
 * <p>It differs from JUnit's class where no test of JUnit's sees it: after the close of a context it answers null, where JUnit's answers what was there.
 */
public class ExtensionValuesStore {
    private final ExtensionValuesStore parent;
    private final Places places;
    private volatile Context context;
    private volatile Store store;

    public ExtensionValuesStore(ExtensionValuesStore parentStore) {
        parent = parentStore;
        places = parentStore == null ? new Places() : parentStore.places;
    }

    private static List<Object> named(Namespace namespace, Object key) {
        return Arrays.asList(namespace, key);
    }

    /** The store of this context's own place, which it gets now if it has none. */
    private Store own() {
        if (store == null) {
            synchronized (this) {
                if (store == null) {
                    context = parent == null ? places.root() : places.below(parent.ownContext());
                    store = context.getStore(extensionstore.Namespace.GLOBAL);
                }
            }
        }
        return store;
    }

    private Context ownContext() {
        own();
        return context;
    }

    /** The store of the nearest context that has a place, or null. */
    private Store nearest() {
        for (ExtensionValuesStore at = this; at != null; at = at.parent) {
            if (at.store != null) {
                return at.store;
            }
        }
        return null;
    }

    private static Object unlessClosed(Supplier<Object> call) {
        try {
            return call.get();
        } catch (StoreException refused) {
            if (refused.isClosed()) {
                return null;
            }
            throw refused;
        }
    }

    public void closeAllStoredCloseableValues() {
        ThrowableCollector collector = createThrowableCollector();
        if (store != null) {
            context.closeBy(resource -> collector.execute(resource::close));
        }
        collector.assertEmpty();
    }

    Object get(Namespace namespace, Object key) {
        Store nearest = nearest();
        return nearest == null ? null : unlessClosed(() -> nearest.get(named(namespace, key)));
    }

    <T> T get(Namespace namespace, Object key, Class<T> requiredType) {
        return cast(key, get(namespace, key), requiredType);
    }

    <K, V> Object getOrComputeIfAbsent(Namespace namespace, K key, Function<K, V> defaultCreator) {
        return own().getOrComputeIfAbsent(named(namespace, key), it -> defaultCreator.apply(key));
    }

    <K, V> V getOrComputeIfAbsent(Namespace namespace, K key, Function<K, V> defaultCreator, Class<V> requiredType) {
        return cast(key, getOrComputeIfAbsent(namespace, key, defaultCreator), requiredType);
    }

    void put(Namespace namespace, Object key, Object value) {
        own().put(named(namespace, key), value);
    }

    Object remove(Namespace namespace, Object key) {
        Store mine = store;
        return mine == null ? null : unlessClosed(() -> mine.remove(named(namespace, key)));
    }

    <T> T remove(Namespace namespace, Object key, Class<T> requiredType) {
        return cast(key, remove(namespace, key), requiredType);
    }

    @SuppressWarnings("unchecked")
    private static <T> T cast(Object key, Object value, Class<T> requiredType) {
        if (value == null) {
            return null;
        }
        if (!isAssignableTo(value, requiredType)) {
            throw new ExtensionContextException(
                    String.format("Object stored under key [%s] is not of required type [%s]", key, requiredType.getName()));
        }
        return requiredType.isPrimitive() ? (T) getWrapperType(requiredType).cast(value) : requiredType.cast(value);
    }
}
