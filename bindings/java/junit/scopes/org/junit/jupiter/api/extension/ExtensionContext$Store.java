package org.junit.jupiter.api.extension;

import java.util.function.Function;

/** For tests alone: by its name and its calls the nested type as JUnit 6 has it, where that version can't be had. */
public interface ExtensionContext$Store {
    Object get(Object key);

    <V> V get(Object key, Class<V> requiredType);

    default <V> V getOrDefault(Object key, Class<V> requiredType, V defaultValue) {
        V value = get(key, requiredType);
        return value == null ? defaultValue : value;
    }

    default <V> V getOrComputeIfAbsent(Class<V> type) {
        return getOrComputeIfAbsent(type, ExtensionContext$Store::made, type);
    }

    <K, V> Object getOrComputeIfAbsent(K key, Function<K, V> defaultCreator);

    <K, V> V getOrComputeIfAbsent(K key, Function<K, V> defaultCreator, Class<V> requiredType);

    default <V> V computeIfAbsent(Class<V> type) {
        return computeIfAbsent(type, ExtensionContext$Store::made, type);
    }

    <K, V> Object computeIfAbsent(K key, Function<? super K, ? extends V> defaultCreator);

    <K, V> V computeIfAbsent(K key, Function<? super K, ? extends V> defaultCreator, Class<V> requiredType);

    void put(Object key, Object value);

    Object remove(Object key);

    <V> V remove(Object key, Class<V> requiredType);

    private static <V> V made(Class<V> type) {
        try {
            return type.getDeclaredConstructor().newInstance();
        } catch (ReflectiveOperationException fault) {
            throw new IllegalStateException(fault);
        }
    }
}
