package jcache.jsr107;

import javax.cache.CacheException;
import javax.cache.processor.EntryProcessor;
import javax.cache.processor.EntryProcessorException;
import javax.cache.processor.MutableEntry;

/** Entry processors (JSR 107, Entry Processors): each runs while its key is held, and its entry is changed when it ends. */
final class Processing<K, V> {
    private final Store<K, V> store;
    private final KeyCalls<K, V> calls;
    private final Types<K, V> types;

    Processing(Store<K, V> store, KeyCalls<K, V> calls, Types<K, V> types) {
        this.store = store;
        this.calls = calls;
        this.types = types;
    }

    /** The entry as the processor sees it. */
    private final class Entry implements MutableEntry<K, V> {
        private final K key;
        private final boolean wasThere;
        private V value;
        private V loaded;
        private boolean hasTriedLoading;
        private boolean isRead;
        private int action = Native.KEEP;

        Entry(K key, byte[] row) {
            this.key = key;
            wasThere = row != null;
            value = store.value(row);
        }

        @Override
        public K getKey() {
            return key;
        }

        @Override
        public boolean exists() {
            return value != null;
        }

        @Override
        public V getValue() {
            isRead = true;
            boolean mayLoad = !wasThere && action == Native.KEEP && !hasTriedLoading && store.through().readsThrough();
            if (mayLoad) {
                hasTriedLoading = true;
                loaded = store.through().load(key);
                value = loaded;
            }
            return value;
        }

        /** An entry that this processor made is as if it had never been. */
        @Override
        public void remove() {
            boolean isOnlyHere = !wasThere && (action == Native.SET || loaded != null);
            action = isOnlyHere ? Native.KEEP : Native.REMOVE;
            loaded = null;
            value = null;
            hasTriedLoading = true;
        }

        @Override
        public void setValue(V to) {
            types.checkValue(to);
            action = Native.SET;
            value = to;
        }

        @Override
        public <T> T unwrap(Class<T> type) {
            return Unwrapping.unwrap(this, type);
        }
    }

    <T> T invoke(K key, EntryProcessor<K, V, T> processor, Object... arguments) {
        return store.held(key, () -> invokeHeld(key, processor, arguments));
    }

    private <T> T invokeHeld(K key, EntryProcessor<K, V, T> processor, Object... arguments) {
        long now = store.now();
        Store.Place place = store.locate(key, true, now);
        Entry entry = new Entry(key, place.row());
        T result;
        try {
            result = processor.process(entry, arguments);
        } catch (RuntimeException e) {
            place.part().load(place.key(), null, false, now);
            count(place);
            throw e instanceof CacheException ? e : new EntryProcessorException(e);
        }
        end(place, entry, now);
        return result;
    }

    private static void count(Store.Place place) {
        place.part().count(place.row() != null ? Native.HITS : Native.MISSES);
    }

    /** Makes the change that the processor wants. */
    private void end(Store.Place place, Entry entry, long now) {
        switch (entry.action) {
            case Native.SET -> set(place, entry, now);
            case Native.REMOVE -> {
                calls.delete(place, entry.key, now);
                calls.afterWriting(place, now, () -> place.part().process(place.key(), Native.REMOVE, null, now));
            }
            default -> keep(place, entry, now);
        }
    }

    private void set(Store.Place place, Entry entry, long now) {
        byte[] payload = store.codec().payload(entry.value);
        store.checkFits(place, payload);
        calls.write(place, entry.key, entry.value, now);
        calls.storeProcessed(place, payload, now);
    }

    /** An entry that was not read is not accessed; one that was loaded is stored. */
    private void keep(Store.Place place, Entry entry, long now) {
        if (entry.loaded != null) {
            count(place);
            calls.storeLoaded(entry.key, entry.loaded, false);
        } else if (place.row() != null && entry.isRead) {
            place.part().process(place.key(), Native.KEEP, null, now);
            calls.renewByAccess(place, place.row(), now);
        } else {
            place.part().load(place.key(), null, false, now);
            count(place);
        }
    }
}
