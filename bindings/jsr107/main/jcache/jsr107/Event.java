package jcache.jsr107;

import javax.cache.Cache;
import javax.cache.event.CacheEntryEvent;
import javax.cache.event.EventType;

/** An event as a listener gets it. */
final class Event<K, V> extends CacheEntryEvent<K, V> {
    private static final long serialVersionUID = 1;
    private final transient K key;
    private final transient V value;
    private final transient V before;

    Event(Cache<K, V> source, EventType type, K key, V value, V before) {
        super(source, type);
        this.key = key;
        this.value = value;
        this.before = before;
    }

    /** The same without the value before, for a listener that does not want it. */
    Event<K, V> withoutOldValue() {
        @SuppressWarnings("unchecked")
        Cache<K, V> cache = getSource();
        return new Event<>(cache, getEventType(), key, getValue(), null);
    }

    @Override
    public K getKey() {
        return key;
    }

    /** Of a removed or expired entry the value that it had (JSR 107, 1.1, CacheEntryEvent.getValue). */
    @Override
    public V getValue() {
        return value == null ? before : value;
    }

    @Override
    public V getOldValue() {
        return before;
    }

    @Override
    public boolean isOldValueAvailable() {
        return before != null;
    }

    @Override
    public <T> T unwrap(Class<T> type) {
        return Unwrapping.unwrap(this, type);
    }

    @Override
    public String toString() {
        return getEventType() + " " + key + " " + value + " " + before;
    }
}
