package jcache.jsr107;

/**
 * The crossings to the library, which {@link NativeLibrary} has loaded. A seat is a manager with one cache; calls on one
 * seat must not overlap. Keys and rows are bytes; `now` is in milliseconds. Where `events` is not null, a call writes what
 * it tells to its first place. Each may throw {@link Refused}.
 */
final class Native {
    static final int OUT_OF_MEMORY = 37;
    static final int BAD_CAPACITY = 49;

    /** The engine's policies. */
    static final int ETERNAL = 0;
    static final int CREATED = 1;
    static final int ACCESSED = 2;
    static final int MODIFIED = 3;
    static final int TOUCHED = 4;

    /** The first two are of {@link #store} and {@link #getAnd}. */
    static final int PUT = 0;
    static final int PUT_IF_ABSENT = 1;
    static final int REPLACE = 2;
    static final int GET_AND_PUT = 0;
    static final int GET_AND_REPLACE = 1;
    static final int GET_AND_REMOVE = 2;

    /** Calls on many keys. */
    static final int GET_ALL = 0;
    static final int REMOVE_KEYS = 1;
    static final int PUT_ALL = 2;
    static final int MOST_KEYS = 64;

    /** What a processor does to its entry. */
    static final int KEEP = 0;
    static final int SET = 1;
    static final int REMOVE = 2;

    /** The kinds of notices. */
    static final int CREATED_ROW = 0;
    static final int UPDATED_ROW = 1;
    static final int REMOVED_ROW = 2;
    static final int EXPIRED_ROW = 3;

    /** The places of the counters. */
    static final int HITS = 0;
    static final int MISSES = 1;
    static final int PUTS = 2;
    static final int REMOVALS = 3;
    static final int EVICTIONS = 4;
    static final int COUNTERS = 5;

    private Native() {}

    /** A seat whose keys are placed under a secret of 16 bytes. */
    static native long open(byte[] secret, int capacity, int policy, long duration, boolean loads, boolean listens);

    static native void close(long seat);

    /** From now on the seat tells of what happens; its counters begin at zero. */
    static native void listen(long seat);

    static native byte[] get(long seat, long now, byte[] key, byte[][] events);

    /** As a get of a row that is there; null where there is none, and nothing is counted. */
    static native byte[] visit(long seat, long now, byte[] key);

    /** The row, and nothing is counted or renewed. */
    static native byte[] peek(long seat, long now, byte[] key);

    static native boolean contains(long seat, long now, byte[] key);

    static native boolean store(long seat, long now, int which, byte[] key, byte[] row, byte[][] events);

    static native byte[] getAnd(long seat, long now, int which, byte[] key, byte[] row, byte[][] events);

    static native boolean remove(long seat, long now, byte[] key, byte[][] events);

    static native boolean exchange(long seat, long now, byte[] key, byte[] seen, byte[] row, byte[][] events);

    static native void load(long seat, long now, byte[] key, byte[] row, boolean replace, byte[][] events);

    static native void process(long seat, long now, byte[] key, int action, byte[] row, byte[][] events);

    static native byte[] many(long seat, long now, int which, int[] lengths, byte[] all, byte[][] events);

    static native void removeAll(long seat, long now, byte[][] events);

    static native void clear(long seat, long now);

    static native int rows(long seat);

    static native long bytes(long seat);

    static native void statistics(long seat, long now, long[] to);

    static native byte[] walk(long seat, int from, int[] next);
}
