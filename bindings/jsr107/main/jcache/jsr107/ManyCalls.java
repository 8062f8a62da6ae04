package jcache.jsr107;

import java.nio.ByteBuffer;
import java.nio.ByteOrder;
import java.util.ArrayList;
import java.util.Arrays;
import java.util.Collection;
import java.util.LinkedHashMap;
import java.util.LinkedHashSet;
import java.util.List;
import java.util.Map;
import java.util.Set;
import javax.cache.Cache;

/**
 * Calls on many keys. Keys that are their own texts, where the engine knows the moments, go up to 64 a crossing; others
 * one by one. What is done before a failure stands.
 */
final class ManyCalls<K, V> {
    private final Store<K, V> store;
    private final KeyCalls<K, V> calls;
    private final Through<K, V> through;
    private final Types<K, V> types;

    ManyCalls(Store<K, V> store, KeyCalls<K, V> calls, Types<K, V> types) {
        this.store = store;
        this.calls = calls;
        this.types = types;
        through = store.through();
    }

    /** Some keys of one part that go in one crossing. */
    private final class Crowd {
        private final Part part;
        private final List<K> keys = new ArrayList<>();
        private final List<byte[]> texts = new ArrayList<>();

        Crowd(Part part) {
            this.part = part;
        }

        /** The engine's call; a row goes behind its key where there are rows. */
        byte[] call(int which, List<byte[]> rows) {
            int step = rows == null ? 1 : 2;
            int[] lengths = new int[step * texts.size()];
            int size = 0;
            for (int i = 0; i < texts.size(); i++) {
                lengths[step * i] = texts.get(i).length;
                size += texts.get(i).length;
                if (rows != null) {
                    lengths[2 * i + 1] = rows.get(i).length;
                    size += rows.get(i).length;
                }
            }
            ByteBuffer all = ByteBuffer.allocate(size);
            for (int i = 0; i < texts.size(); i++) {
                all.put(texts.get(i));
                if (rows != null) {
                    all.put(rows.get(i));
                }
            }
            return part.many(which, keys, lengths, all.array(), store.now());
        }
    }

    /** Deals keys out to crowds; those that go one by one are left in `others`. */
    private List<Crowd> crowds(Collection<K> keys, List<K> others) {
        List<Crowd> crowds = new ArrayList<>();
        Map<Part, Crowd> open = new LinkedHashMap<>();
        for (K key : keys) {
            byte[] own = store.expiry().isOwn() ? null : Keys.own(key);
            if (own == null) {
                others.add(key);
                continue;
            }
            Crowd crowd = open.computeIfAbsent(store.part(key), Crowd::new);
            crowd.keys.add(key);
            crowd.texts.add(own);
            if (crowd.keys.size() == Native.MOST_KEYS) {
                crowds.add(open.remove(crowd.part));
            }
        }
        crowds.addAll(open.values());
        return crowds;
    }

    /** Where keys are loaded, each is got by itself, so that they are loaded in their order. */
    Map<K, V> getAll(Set<K> keys) {
        Map<K, V> found = new LinkedHashMap<>();
        List<K> others = new ArrayList<>();
        if (through.readsThrough()) {
            others.addAll(keys);
        } else {
            for (Crowd crowd : crowds(keys, others)) {
                addFound(crowd, crowd.call(Native.GET_ALL, null), found);
            }
        }
        for (K key : others) {
            V value = calls.get(key);
            if (value != null) {
                found.put(key, value);
            }
        }
        return found;
    }

    /** The pairs come in the keys' order. */
    private void addFound(Crowd crowd, byte[] pairs, Map<K, V> found) {
        ByteBuffer in = ByteBuffer.wrap(pairs).order(ByteOrder.LITTLE_ENDIAN);
        for (int i = 0; in.hasRemaining(); i++) {
            byte[] text = new byte[in.get()];
            byte[] row = new byte[Short.toUnsignedInt(in.getShort())];
            in.get(text).get(row);
            while (!Arrays.equals(text, crowd.texts.get(i))) {
                i++;
            }
            found.put(crowd.keys.get(i), store.value(row));
        }
    }

    void putAll(Map<K, V> pairs) {
        if (!through.writes()) {
            putThem(pairs);
            return;
        }
        store.heldAll(pairs.keySet(), () -> {
            pairs.forEach(calls::checkFits);
            List<Cache.Entry<? extends K, ? extends V>> unwritten = new ArrayList<>();
            pairs.forEach((key, value) -> unwritten.add(new Pair<>(key, value)));
            RuntimeException failure = failure(() -> through.writeAll(unwritten));
            if (failure != null) {
                unwritten.forEach(entry -> pairs.remove(entry.getKey()));
            }
            putWritten(pairs);
            return thrown(failure);
        });
    }

    private static RuntimeException failure(Runnable run) {
        try {
            run.run();
            return null;
        } catch (RuntimeException e) {
            return e;
        }
    }

    private static Void thrown(RuntimeException failure) {
        if (failure != null) {
            throw failure;
        }
        return null;
    }

    /** Where a put is refused, no row is left of the keys that are written. */
    private void putWritten(Map<K, V> pairs) {
        try {
            putThem(pairs);
        } catch (Refused e) {
            pairs.keySet().forEach(calls::drop);
            throw e;
        }
    }

    private void putThem(Map<K, V> pairs) {
        List<K> others = new ArrayList<>();
        for (Crowd crowd : crowds(pairs.keySet(), others)) {
            List<byte[]> rows = new ArrayList<>();
            for (K key : crowd.keys) {
                rows.add(store.row(pairs.get(key)));
            }
            if (rows.contains(null)) {
                others.addAll(crowd.keys);
            } else {
                crowd.call(Native.PUT_ALL, rows);
            }
        }
        others.forEach(key -> calls.put(key, pairs.get(key)));
    }

    void removeAll(Set<K> keys) {
        if (!through.writes()) {
            removeThem(keys);
            return;
        }
        store.heldAll(keys, () -> {
            List<K> undeleted = new ArrayList<>(keys);
            RuntimeException failure = failure(() -> through.deleteAll(undeleted));
            Set<K> deleted = new LinkedHashSet<>(keys);
            if (failure != null) {
                undeleted.forEach(deleted::remove);
            }
            try {
                removeThem(deleted);
            } catch (Refused e) {
                deleted.forEach(calls::drop);
                throw e;
            }
            return thrown(failure);
        });
    }

    private void removeThem(Set<K> keys) {
        List<K> others = new ArrayList<>();
        for (Crowd crowd : crowds(keys, others)) {
            crowd.call(Native.REMOVE_KEYS, null);
        }
        others.forEach(calls::removeUnwritten);
    }

    /** All rows: with a writer by their keys, else each part in its ring's order. */
    @SuppressWarnings("unchecked")
    void removeAll() {
        if (!through.writes()) {
            for (Part part : store.parts()) {
                part.removeAll(store.now());
            }
            return;
        }
        Set<K> keys = new LinkedHashSet<>();
        Walk walk = new Walk(store.parts());
        while (walk.advance(store.now())) {
            keys.add((K) Keys.key(walk.key(), walk.row(), store.codec()));
        }
        if (!keys.isEmpty()) {
            removeAll(keys);
        }
    }

    void clear() {
        for (Part part : store.parts()) {
            part.clear(store.now());
        }
    }

    /** Loads keys, those that have a row only where `replace` is true, with one call of the loader. */
    void loadAll(Set<K> keys, boolean replace) {
        store.heldAll(keys, () -> {
            Set<K> wanted = new LinkedHashSet<>();
            for (K key : keys) {
                if (replace || store.locate(key, false, store.now()).row() == null) {
                    wanted.add(key);
                }
            }
            Map<K, V> loaded = wanted.isEmpty() ? Map.of() : through.loadAll(wanted);
            for (K key : wanted) {
                V value = loaded == null ? null : loaded.get(key);
                if (value == null) {
                    calls.dropExpired(key);
                } else {
                    types.checkValue(value);
                    calls.storeLoaded(key, value, replace);
                }
            }
            return null;
        });
    }
}
