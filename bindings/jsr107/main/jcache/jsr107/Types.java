package jcache.jsr107;

import java.util.LinkedHashMap;
import java.util.LinkedHashSet;
import java.util.Map;
import java.util.Objects;
import java.util.Set;

/** The declared types of a cache, at which each key and value that comes in is looked (JSR 107, Cache Type-Safety). */
final class Types<K, V> {
    private final Class<K> keys;
    private final Class<V> values;

    Types(Class<K> keys, Class<V> values) {
        this.keys = keys;
        this.values = values;
    }

    /** NullPointerException or ClassCastException. */
    void checkKey(Object key) {
        check(keys, key, "key");
    }

    void checkValue(Object value) {
        check(values, value, "value");
    }

    private static void check(Class<?> type, Object given, String what) {
        Objects.requireNonNull(given, what);
        if (!type.isInstance(given)) {
            throw new ClassCastException("the " + what + " is a " + given.getClass().getName() + ", and no "
                    + type.getName());
        }
    }

    /** A copy, in the set's order. */
    Set<K> checkedKeys(Set<? extends K> given) {
        Set<K> checked = new LinkedHashSet<>();
        for (K key : given) {
            checkKey(key);
            checked.add(key);
        }
        return checked;
    }

    /** A copy, in the map's order. */
    Map<K, V> checkedPairs(Map<? extends K, ? extends V> given) {
        Map<K, V> checked = new LinkedHashMap<>();
        given.forEach((key, value) -> {
            checkKey(key);
            checkValue(value);
            checked.put(key, value);
        });
        return checked;
    }
}
