package jcache.jsr107;

import java.util.Collection;
import java.util.HashMap;
import java.util.List;
import java.util.Map;
import java.util.concurrent.locks.ReentrantLock;

/**
 * A seat of the library under a lock, which is held for one crossing and never while code of the user's runs. Such code
 * runs while its key is held: calls that change a held key wait, other keys go on. The thread that holds a key may call.
 */
final class Part {
    /** A moment at which no row has expired. */
    private static final long BEGINNING = 0;

    /** A crossing to the library. */
    private interface Crossing<R> {
        R make(byte[][] events);
    }

    private final ReentrantLock lock = new ReentrantLock();
    private final Holds holds = new Holds(lock);
    private final Telling<?, ?> telling;
    private final int capacity;
    private long seat;
    private boolean listens;
    /** What is to be added to the engine's counters. */
    private final long[] beside = new long[Native.COUNTERS];
    /** Of keys that share a text how many places may have rows, where these are more than one. */
    private final Map<Keys.Shared, Integer> reaches = new HashMap<>();

    Part(byte[] secret, int capacity, Expiry expiry, boolean loads, boolean listens, Telling<?, ?> telling) {
        this.telling = telling;
        this.capacity = capacity;
        this.listens = listens;
        NativeLibrary.load();
        seat = Native.open(secret, capacity, expiry.policy(), expiry.duration(), loads, listens);
    }

    int capacity() {
        return capacity;
    }

    private void checkOpen() {
        if (seat == 0) {
            throw new IllegalStateException("the cache is closed");
        }
    }

    private void awaitFree(Collection<?> names) {
        while (!holds.isEmpty() && !names.stream().allMatch(holds::isFree)) {
            holds.await();
            checkOpen();
        }
    }

    private byte[][] events() {
        return listens ? new byte[1][] : null;
    }

    /** Hands over what a crossing told. */
    private void tell(byte[][] events, long now) {
        if (events != null && events[0] != null) {
            beside[Native.REMOVALS] -= telling.add(events[0], now);
        }
    }

    private <R> R crossed(long now, Collection<?> names, Crossing<R> crossing) {
        lock.lock();
        try {
            checkOpen();
            awaitFree(names);
            byte[][] events = events();
            try {
                return crossing.make(events);
            } finally {
                tell(events, now);
            }
        } finally {
            lock.unlock();
        }
    }

    private <R> R crossed(long now, Crossing<R> crossing) {
        return crossed(now, List.of(), crossing);
    }

    /** Holds keys, all at once, when no other thread holds one of them. */
    void hold(Collection<?> names) {
        lock.lock();
        try {
            checkOpen();
            awaitFree(names);
            holds.take(names);
        } finally {
            lock.unlock();
        }
    }

    void release(Collection<?> names) {
        lock.lock();
        try {
            holds.release(names);
        } finally {
            lock.unlock();
        }
    }

    // Calls on one key. `name` is what is held of it. The first two are made most often, and make no object of their own.

    byte[] get(byte[] key, long now) {
        lock.lock();
        try {
            checkOpen();
            byte[][] events = events();
            try {
                return Native.get(seat, now, key, events);
            } finally {
                tell(events, now);
            }
        } finally {
            lock.unlock();
        }
    }

    boolean store(int which, Object name, byte[] key, byte[] row, long now) {
        lock.lock();
        try {
            checkOpen();
            if (!holds.isEmpty()) {
                awaitFree(List.of(name));
            }
            byte[][] events = events();
            try {
                return Native.store(seat, now, which, key, row, events);
            } finally {
                tell(events, now);
            }
        } finally {
            lock.unlock();
        }
    }

    byte[] visit(byte[] key, long now) {
        return crossed(now, events -> Native.visit(seat, now, key));
    }

    byte[] peek(byte[] key, long now) {
        return crossed(now, events -> Native.peek(seat, now, key));
    }

    boolean contains(byte[] key, long now) {
        return crossed(now, events -> Native.contains(seat, now, key));
    }

    byte[] getAnd(int which, Object name, byte[] key, byte[] row, long now) {
        return crossed(now, List.of(name), events -> Native.getAnd(seat, now, which, key, row, events));
    }

    boolean remove(Object name, byte[] key, long now) {
        return crossed(now, List.of(name), events -> Native.remove(seat, now, key, events));
    }

    // Calls on a key that is held.

    boolean exchange(byte[] key, byte[] seen, byte[] row, long now) {
        return crossed(now, events -> Native.exchange(seat, now, key, seen, row, events));
    }

    void load(byte[] key, byte[] row, boolean replace, long now) {
        crossed(now, events -> {
            Native.load(seat, now, key, row, replace, events);
            return null;
        });
    }

    /** Puts a row in place of another without telling or counting that. */
    void renew(byte[] key, byte[] row, long now) {
        crossed(now, events -> {
            Native.load(seat, now, key, row, true, null);
            return null;
        });
    }

    void process(byte[] key, int action, byte[] row, long now) {
        crossed(now, events -> {
            Native.process(seat, now, key, action, row, events);
            return null;
        });
    }

    // Calls on many keys and on all.

    byte[] many(int which, Collection<?> names, int[] lengths, byte[] all, long now) {
        return crossed(now, names, events -> Native.many(seat, now, which, lengths, all, events));
    }

    void removeAll(long now) {
        crossed(now, events -> {
            Native.removeAll(seat, now, events);
            return null;
        });
    }

    void clear(long now) {
        crossed(now, events -> {
            Native.clear(seat, now);
            return null;
        });
    }

    byte[] walk(int from, int[] next) {
        return crossed(0, events -> Native.walk(seat, from, next));
    }

    int rows() {
        return crossed(0, events -> Native.rows(seat));
    }

    long bytes() {
        return crossed(0, events -> Native.bytes(seat));
    }

    /** Counts what the engine has not seen. */
    void count(int which) {
        crossed(0, events -> beside[which]++);
    }

    long[] counters() {
        return crossed(0, events -> {
            long[] counters = new long[Native.COUNTERS];
            Native.statistics(seat, 0, counters);
            for (int i = 0; i < counters.length; i++) {
                counters[i] += beside[i];
            }
            return counters;
        });
    }

    // Keys that share a text.

    int reach(Keys.Shared name) {
        return crossed(0, events -> reaches.getOrDefault(name, 1));
    }

    void setReach(Keys.Shared name, int places) {
        crossed(0, events -> {
            if (places > 1) {
                reaches.put(name, places);
            } else {
                reaches.remove(name);
            }
            if (reaches.size() > 2 * capacity) {
                sweepReaches();
            }
            return null;
        });
    }

    /** Forgets places behind the last row: what is left has rows, so there are no more of them than the capacity. */
    private void sweepReaches() {
        reaches.entrySet().removeIf(each -> {
            if (holds.has(each.getKey())) {
                return false;
            }
            int reach = each.getValue();
            while (reach > 1 && !Native.contains(seat, BEGINNING, each.getKey().place(reach - 1))) {
                reach--;
            }
            each.setValue(reach);
            return reach == 1;
        });
    }

    /** Whether there is a row, be it expired. */
    boolean isTaken(byte[] key) {
        return crossed(0, events -> Native.contains(seat, BEGINNING, key));
    }

    int reachesKept() {
        return crossed(0, events -> reaches.size());
    }

    // Its life.

    /** From now on it tells what happens. */
    void listen() {
        crossed(0, events -> {
            if (!listens) {
                long[] before = new long[Native.COUNTERS];
                Native.statistics(seat, 0, before);
                Native.listen(seat);
                for (int i = 0; i < before.length; i++) {
                    beside[i] += before[i];
                }
                listens = true;
            }
            return null;
        });
    }

    void close() {
        lock.lock();
        try {
            if (seat != 0) {
                Native.close(seat);
                seat = 0;
            }
            holds.wake();
        } finally {
            lock.unlock();
        }
    }
}
