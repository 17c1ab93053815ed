package org.junit.jupiter.engine.execution;

import static org.junit.jupiter.engine.support.JupiterThrowableCollectorFactory.createThrowableCollector;

import extensionstore.junit.ProvedStore;
import java.lang.reflect.InvocationHandler;
import java.lang.reflect.Proxy;
import java.util.Comparator;
import java.util.Map;
import java.util.Optional;
import java.util.concurrent.ConcurrentHashMap;
import java.util.concurrent.atomic.AtomicInteger;
import java.util.function.Function;
import org.junit.jupiter.api.extension.ExtensionContext;
import org.junit.jupiter.api.extension.ExtensionContext.Namespace;
import org.junit.jupiter.api.extension.ExtensionContext.Store;
import org.junit.platform.engine.support.hierarchical.ThrowableCollector;

/**
 * For tests alone: a class of the name and package of JUnit 5.9.2's store, over the jar's {@link ProvedStore}, so that all that JUnit's own engine
 * and extensions store goes through the jar. What the jar keeps in JUnit's own store stands here in a map, and is closed the latest first.
 */
public class ExtensionValuesStore {
    private final Map<Object, Kept> kept = new ConcurrentHashMap<>();
    private final AtomicInteger numbers = new AtomicInteger();
    private final ExtensionContext context;

    private record Kept(int number, Store.CloseableResource resource) {}

    @SuppressWarnings("unchecked")
    public ExtensionValuesStore(ExtensionValuesStore parent) {
        Store store = like(Store.class, (it, method, given) -> switch (method.getName()) {
            case "getOrComputeIfAbsent" -> kept.computeIfAbsent(given[0], key -> kept(((Function<Object, Object>) given[1]).apply(key))).resource();
            case "put" -> kept.put(given[0], kept(given[1]));
            case "remove" -> kept.remove(given[0]);
            default -> throw new UnsupportedOperationException(method.getName());
        });
        context = like(ExtensionContext.class, (it, method, given) -> switch (method.getName()) {
            case "getStore" -> store;
            case "getUniqueId" -> "[context:it]";
            case "getParent" -> Optional.ofNullable(parent).map(above -> above.context);
            case "getTestMethod" -> Optional.empty();
            case "getConfigurationParameter" -> Optional.of("1023"); // numbers, which for the root are many to open
            default -> throw new UnsupportedOperationException(method.getName());
        });
    }

    private static <T> T like(Class<T> type, InvocationHandler calls) {
        return type.cast(Proxy.newProxyInstance(ExtensionValuesStore.class.getClassLoader(), new Class<?>[] {type}, calls));
    }

    private Kept kept(Object resource) {
        return new Kept(numbers.getAndIncrement(), (Store.CloseableResource) resource);
    }

    private ProvedStore of(Namespace namespace) {
        return ProvedStore.of(context, namespace);
    }

    public void closeAllStoredCloseableValues() {
        ThrowableCollector collector = createThrowableCollector();
        kept.values().stream()
                .sorted(Comparator.comparing(Kept::number).reversed())
                .forEach(each -> collector.execute(each.resource()::close));
        collector.assertEmpty();
    }

    Object get(Namespace namespace, Object key) {
        return of(namespace).get(key);
    }

    <T> T get(Namespace namespace, Object key, Class<T> requiredType) {
        return of(namespace).get(key, requiredType);
    }

    <K, V> Object getOrComputeIfAbsent(Namespace namespace, K key, Function<K, V> defaultCreator) {
        return of(namespace).getOrComputeIfAbsent(key, defaultCreator);
    }

    <K, V> V getOrComputeIfAbsent(Namespace namespace, K key, Function<K, V> defaultCreator, Class<V> requiredType) {
        return of(namespace).getOrComputeIfAbsent(key, defaultCreator, requiredType);
    }

    void put(Namespace namespace, Object key, Object value) {
        of(namespace).put(key, value);
    }

    Object remove(Namespace namespace, Object key) {
        return of(namespace).remove(key);
    }

    <T> T remove(Namespace namespace, Object key, Class<T> requiredType) {
        return of(namespace).remove(key, requiredType);
    }
}
