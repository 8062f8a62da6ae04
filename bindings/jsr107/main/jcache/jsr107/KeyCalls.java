package jcache.jsr107;

import java.util.Arrays;

/**
 * Calls on one key. Where none of the user's code has to run, a call is one crossing. Else its key is held: the row is
 * looked at, the user's code runs with no lock of a part, and then the engine's call is made, all at one moment.
 */
final class KeyCalls<K, V> {
    /** What a changing call came to. */
    record Changed(boolean isDone, byte[] before) {}

    /** The engine's changing calls: how each is made, and whether it stores where there is a row, and where none. */
    enum Change {
        PUT(true, true), PUT_IF_ABSENT(false, true), REPLACE(true, false),
        GET_AND_PUT(true, true), GET_AND_REPLACE(true, false);

        private final boolean overRow;
        private final boolean anew;

        Change(boolean overRow, boolean anew) {
            this.overRow = overRow;
            this.anew = anew;
        }

        boolean stores(boolean hasRow) {
            return hasRow ? overRow : anew;
        }

        Changed call(Part part, Object name, byte[] key, byte[] row, long now) {
            return switch (this) {
                case PUT -> new Changed(part.store(Native.PUT, name, key, row, now), null);
                case PUT_IF_ABSENT -> new Changed(part.store(Native.PUT_IF_ABSENT, name, key, row, now), null);
                case REPLACE -> new Changed(part.store(Native.REPLACE, name, key, row, now), null);
                case GET_AND_PUT -> new Changed(true, part.getAnd(Native.GET_AND_PUT, name, key, row, now));
                case GET_AND_REPLACE -> new Changed(true, part.getAnd(Native.GET_AND_REPLACE, name, key, row, now));
            };
        }
    }

    private static final byte[] NO_ROW = {};

    private final Store<K, V> store;
    private final Expiry expiry;
    private final Through<K, V> through;
    private final Types<K, V> types;

    KeyCalls(Store<K, V> store, Types<K, V> types) {
        this.store = store;
        this.types = types;
        expiry = store.expiry();
        through = store.through();
    }

    // Reading.

    V get(K key) {
        byte[] own = expiry.isOwn() ? null : Keys.own(key);
        byte[] row = own != null ? store.part(key).get(own, store.now()) : store.held(key, () -> getHeld(key));
        return row == null && through.readsThrough() ? load(key) : store.value(row);
    }

    /** A get of a key that is held, without loading. */
    private byte[] getHeld(K key) {
        long now = store.now();
        Store.Place place = store.locate(key, true, now);
        byte[] row = place.part().get(place.key(), now);
        if (row != null) {
            renewByAccess(place, row, now);
        }
        return row;
    }

    /** Where the policy is the user's own, its moment after an access. */
    void renewByAccess(Store.Place place, byte[] row, long now) {
        Long moment = expiry.isOwn() ? expiry.onAccess(now) : null;
        if (moment != null) {
            place.part().renew(place.key(), Codec.withMoment(row, moment), now);
        }
    }

    /** Loads a key that a get has missed: one thread a key at a time, and the next finds what it stored. */
    private V load(K key) {
        return store.held(key, () -> {
            byte[] row = store.locate(key, true, store.now()).row();
            if (row != null) {
                return store.value(row);
            }
            V value = through.load(key);
            if (value != null) {
                types.checkValue(value);
                storeLoaded(key, value, false);
            }
            return value;
        });
    }

    /** Stores a loaded value of a key that is held; also over a row where `replace` is true. */
    void storeLoaded(K key, V value, boolean replace) {
        long now = store.now();
        byte[] payload = store.codec().payload(value);
        Store.Place place = store.locate(key, true, now);
        if (place.row() != null && !replace) {
            return;
        }
        long moment = expiry.isOwn() ? momentOf(place, now) : 0;
        byte[] row = store.row(place, payload, moment);
        if (row == null) {
            skip(place, now);
        } else if (place.row() != null || !isPastAtOnce(moment, now)) {
            place.part().load(place.key(), row, replace, now);
        }
    }

    /** Meets the row of a key that is held: it goes where it is expired. */
    void dropExpired(K key) {
        long now = store.now();
        Store.Place place = store.locate(key, true, now);
        place.part().load(place.key(), null, false, now);
    }

    /** The moment of what is stored at a place. */
    private long momentOf(Store.Place place, long now) {
        if (place.row() == null) {
            return expiry.onCreation(now);
        }
        Long moment = expiry.onUpdate(now);
        return moment != null ? moment : Codec.momentOf(place.row());
    }

    private boolean isPastAtOnce(long moment, long now) {
        return expiry.isOwn() && moment <= now;
    }

    /** The row of a key that a walk has met, with a hit and an access; null where it is not live there any more. */
    byte[] visit(K key, Part part, byte[] text, byte[] met) {
        return expiry.isOwn() || Codec.hasKey(met) ? store.held(key, () -> visitHeld(part, text, met))
                : part.visit(text, store.now());
    }

    private byte[] visitHeld(Part part, byte[] text, byte[] met) {
        long now = store.now();
        byte[] row = part.peek(text, now);
        if (row == null || Codec.isPast(row, now) || !Codec.isOfSameKey(row, met)) {
            return null;
        }
        row = part.visit(text, now);
        if (row != null) {
            renewByAccess(new Store.Place(part, null, text, null, row), row, now);
        }
        return row;
    }

    boolean contains(K key) {
        long now = store.now();
        byte[] own = expiry.isOwn() ? null : Keys.own(key);
        return own != null ? store.part(key).contains(own, now)
                : store.held(key, () -> store.locate(key, false, now).row() != null);
    }

    // Storing.

    Changed change(Change change, K key, V value) {
        byte[] own = expiry.isOwn() || through.writes() ? null : Keys.own(key);
        if (own != null) {
            byte[] row = store.row(value);
            if (row != null) {
                return change.call(store.part(key), key, own, row, store.now());
            }
        }
        return store.held(key, () -> changeHeld(change, key, value));
    }

    /** A change of a key that is held. */
    private Changed changeHeld(Change change, K key, V value) {
        long now = store.now();
        byte[] payload = store.codec().payload(value);
        Store.Place place = store.locate(key, true, now);
        store.checkFits(place, payload);
        if (!change.stores(place.row() != null)) {
            change.call(place.part(), place.name(), place.key(), NO_ROW, now);
            return new Changed(false, null);
        }
        write(place, key, value, now);
        storeWritten(change, place, payload, now);
        return new Changed(true, place.row());
    }

    /** Stores what the writer, if any, has written. */
    private void storeWritten(Change change, Store.Place place, byte[] payload, long now) {
        long moment = expiry.isOwn() ? momentOf(place, now) : 0;
        byte[] row = store.row(place, payload, moment);
        if (row == null) {
            skip(place, now);
        } else if (place.row() == null && isPastAtOnce(moment, now)) {
            countMiss(change, place);
        } else {
            afterWriting(place, now, () -> change.call(place.part(), place.name(), place.key(), row, now));
        }
    }

    /** Puts a value without asking the writer. */
    void put(K key, V value) {
        store.held(key, () -> {
            long now = store.now();
            byte[] payload = store.codec().payload(value);
            Store.Place place = store.locate(key, true, now);
            store.checkFits(place, payload);
            storeWritten(Change.PUT, place, payload, now);
            return null;
        });
    }

    /** Refuses a value that does not fit. */
    void checkFits(K key, V value) {
        store.checkFits(store.locate(key, false, store.now()), store.codec().payload(value));
    }

    /** Removes a key without asking the writer. */
    void removeUnwritten(K key) {
        store.held(key, () -> {
            long now = store.now();
            Store.Place place = store.locate(key, true, now);
            return place.part().remove(place.name(), place.key(), now);
        });
    }

    /** Leaves no row of a key, though memory is refused. */
    void drop(K key) {
        store.held(key, () -> {
            drop(store.locate(key, true, store.now()), store.now());
            return null;
        });
    }

    /** Stores what a processor has set and the writer has written. */
    void storeProcessed(Store.Place place, byte[] payload, long now) {
        long moment = expiry.isOwn() ? momentOf(place, now) : 0;
        byte[] row = store.row(place, payload, moment);
        if (row == null) {
            skip(place, now);
        } else if (place.row() == null && isPastAtOnce(moment, now)) {
            place.part().count(Native.MISSES);
        } else {
            afterWriting(place, now, () -> place.part().process(place.key(), Native.SET, row, now));
        }
    }

    /** An entry that expires at once is not added, and no put counts. */
    private static void countMiss(Change change, Store.Place place) {
        if (change != Change.PUT) {
            place.part().count(Native.MISSES);
        }
    }

    /** What is too long is not stored, and what stood there goes. */
    private void skip(Store.Place place, long now) {
        store.countSkipped();
        if (place.row() != null) {
            place.part().remove(place.name(), place.key(), now);
        }
    }

    /** Asks the writer; where that fails, only an expired row goes. */
    void write(Store.Place place, K key, V value, long now) {
        if (through.writes()) {
            try {
                through.write(key, value);
            } catch (RuntimeException e) {
                place.part().load(place.key(), null, false, now);
                throw e;
            }
        }
    }

    void delete(Store.Place place, K key, long now) {
        if (through.writes()) {
            try {
                through.delete(key);
            } catch (RuntimeException e) {
                place.part().load(place.key(), null, false, now);
                throw e;
            }
        }
    }

    /** Makes the engine's call after the writer's: refused, it leaves no row that the store no longer has. */
    void afterWriting(Store.Place place, long now, Runnable call) {
        try {
            call.run();
        } catch (Refused e) {
            if (through.writes()) {
                drop(place, now);
            }
            throw e;
        }
    }

    private void drop(Store.Place place, long now) {
        try {
            place.part().remove(place.name(), place.key(), now);
        } catch (Refused e) {
            place.part().clear(now);
        }
    }

    // Removing, and what compares values.

    boolean remove(K key) {
        byte[] own = expiry.isOwn() || through.writes() ? null : Keys.own(key);
        return own != null ? store.part(key).remove(key, own, store.now()) : store.held(key, () -> {
            long now = store.now();
            Store.Place place = store.locate(key, true, now);
            delete(place, key, now);
            afterWriting(place, now, () -> place.part().remove(place.name(), place.key(), now));
            return place.row() != null;
        });
    }

    byte[] getAndRemove(K key) {
        byte[] own = expiry.isOwn() || through.writes() ? null : Keys.own(key);
        if (own != null) {
            return store.part(key).getAnd(Native.GET_AND_REMOVE, key, own, null, store.now());
        }
        return store.held(key, () -> {
            long now = store.now();
            Store.Place place = store.locate(key, true, now);
            delete(place, key, now);
            afterWriting(place, now,
                    () -> place.part().getAnd(Native.GET_AND_REMOVE, place.name(), place.key(), null, now));
            return place.row();
        });
    }

    boolean remove(K key, V old) {
        return store.held(key, () -> {
            long now = store.now();
            Store.Place place = store.locate(key, true, now);
            if (!isEqual(place, old, now)) {
                return false;
            }
            delete(place, key, now);
            afterWriting(place, now, () -> place.part().exchange(place.key(), place.row(), null, now));
            return true;
        });
    }

    boolean replace(K key, V old, V value) {
        return store.held(key, () -> {
            long now = store.now();
            byte[] payload = store.codec().payload(value);
            Store.Place place = store.locate(key, true, now);
            store.checkFits(place, payload);
            if (!isEqual(place, old, now)) {
                return false;
            }
            write(place, key, value, now);
            byte[] row = store.row(place, payload, expiry.isOwn() ? momentOf(place, now) : 0);
            if (row == null) {
                skip(place, now);
            } else {
                afterWriting(place, now, () -> place.part().exchange(place.key(), place.row(), row, now));
            }
            return true;
        });
    }

    /** Whether the row's value equals another; where it does not, that counts, and a row that is there was accessed. */
    private boolean isEqual(Store.Place place, V old, long now) {
        if (place.row() != null && areEqual(old, store.value(place.row()))) {
            return true;
        }
        place.part().exchange(place.key(), NO_ROW, null, now);
        if (place.row() != null) {
            renewByAccess(place, place.row(), now);
        }
        return false;
    }

    private static boolean areEqual(Object some, Object other) {
        return some instanceof byte[] bytes ? other instanceof byte[] more && Arrays.equals(bytes, more)
                : some.equals(other);
    }
}
