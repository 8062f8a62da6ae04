package jcache.jsr107;

import java.util.Iterator;
import java.util.NoSuchElementException;
import java.util.function.Consumer;
import javax.cache.Cache;

/** A cache's iterator. An entry that is given counts a hit and is accessed. */
final class Entries<K, V> implements Iterator<Cache.Entry<K, V>> {
    private final Store<K, V> store;
    private final KeyCalls<K, V> calls;
    private final Consumer<K> removal;
    private final Walk walk;
    private boolean hasRow;
    private K last;

    /** @param removal removes a key, as the cache does */
    Entries(Store<K, V> store, KeyCalls<K, V> calls, Consumer<K> removal) {
        this.store = store;
        this.calls = calls;
        this.removal = removal;
        walk = new Walk(store.parts());
    }

    @Override
    public boolean hasNext() {
        if (!hasRow) {
            hasRow = walk.advance(store.now());
        }
        return hasRow;
    }

    /** An entry that went meanwhile is given as the walk met it, and counts nothing. */
    @Override
    @SuppressWarnings("unchecked")
    public Cache.Entry<K, V> next() {
        if (!hasNext()) {
            throw new NoSuchElementException();
        }
        hasRow = false;
        last = (K) Keys.key(walk.key(), walk.row(), store.codec());
        byte[] row = calls.visit(last, walk.from(), walk.key(), walk.row());
        return new Pair<>(last, store.value(row != null ? row : walk.row()));
    }

    @Override
    public void remove() {
        if (last == null) {
            throw new IllegalStateException("no entry to remove");
        }
        removal.accept(last);
        last = null;
    }
}
