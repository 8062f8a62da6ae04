package jcache.jsr107;

import java.security.SecureRandom;
import java.util.ArrayList;
import java.util.Collection;
import java.util.LinkedHashSet;
import java.util.List;
import java.util.Set;
import java.util.concurrent.atomic.AtomicLong;
import java.util.function.LongSupplier;
import java.util.function.Supplier;
import javax.cache.CacheException;

/** Where a cache's rows stand: its parts, how keys are found in them, and what each of its calls needs. */
final class Store<K, V> {
    /** The place of a key, whose name is held where it shares its text, and the row that stands there, or null. */
    record Place(Part part, Object name, byte[] key, byte[] beside, byte[] row) {}

    private final Part[] parts;
    private final Codec codec;
    private final Expiry expiry;
    private final Through<K, V> through;
    private final LongSupplier clock;
    private final int maxValue;
    private final boolean skipsOversize;
    private final AtomicLong skipped = new AtomicLong();

    Store(Settings settings, Codec codec, Expiry expiry, Through<K, V> through, Telling<K, V> telling) {
        this.codec = codec;
        this.expiry = expiry;
        this.through = through;
        clock = settings.clock();
        maxValue = settings.maxValue();
        skipsOversize = settings.skipsOversize();
        boolean loads = through.hasLoader() || through.writes() || expiry.isOwn();
        boolean listens = telling.hasListeners() || expiry.isOwn();
        SecureRandom secrets = new SecureRandom();
        List<Part> made = new ArrayList<>();
        try {
            for (int i = 0; i < settings.parts(); i++) {
                byte[] secret = new byte[16];
                secrets.nextBytes(secret);
                made.add(new Part(secret, settings.capacity(i), expiry, loads, listens, telling));
            }
        } catch (RuntimeException e) {
            made.forEach(Part::close);
            throw e;
        }
        parts = made.toArray(new Part[0]);
    }

    Part[] parts() {
        return parts;
    }

    Codec codec() {
        return codec;
    }

    Expiry expiry() {
        return expiry;
    }

    Through<K, V> through() {
        return through;
    }

    long now() {
        return clock.getAsLong();
    }

    Part part(Object key) {
        return parts[partNumber(key)];
    }

    int partNumber(Object key) {
        return parts.length == 1 ? 0 : Math.floorMod(key.hashCode() * 0x9E3779B9 >>> 7, parts.length);
    }

    @SuppressWarnings("unchecked")
    V value(byte[] row) {
        return row == null ? null : (V) codec.value(row);
    }

    // Holding keys.

    /** What is held of a key: itself where it is its own text. */
    static Object name(Object key, byte[] own) {
        return own != null ? key : Keys.shared(key);
    }

    <R> R held(K key, Supplier<R> body) {
        Part part = part(key);
        List<Object> names = List.of(name(key, Keys.own(key)));
        part.hold(names);
        try {
            return body.get();
        } finally {
            part.release(names);
        }
    }

    /** Holds many keys; those of one part all at once, and parts in their order, so that none waits for another in turn. */
    <R> R heldAll(Collection<? extends K> keys, Supplier<R> body) {
        List<Set<Object>> names = new ArrayList<>();
        for (int i = 0; i < parts.length; i++) {
            names.add(new LinkedHashSet<>());
        }
        keys.forEach(key -> names.get(partNumber(key)).add(name(key, Keys.own(key))));
        int holding = 0;
        try {
            for (; holding < parts.length; holding++) {
                parts[holding].hold(names.get(holding));
            }
            return body.get();
        } finally {
            while (holding-- > 0) {
                parts[holding].release(names.get(holding));
            }
        }
    }

    // Finding keys.

    /** Where a key stands, or is to be stored. A row past its own moment goes, where `meets` is true. */
    Place locate(K key, boolean meets, long now) {
        Part part = part(key);
        byte[] own = Keys.own(key);
        return own != null ? new Place(part, key, own, null, live(part, key, own, meets, now))
                : search(part, key, Keys.shared(key), meets, now);
    }

    private byte[] live(Part part, Object name, byte[] text, boolean meets, long now) {
        byte[] row = part.peek(text, now);
        if (row != null && Codec.isPast(row, now)) {
            if (meets) {
                part.remove(name, text, now);
            }
            return null;
        }
        return row;
    }

    /** Looks at all places that may have a row of the name, and compares keys by equals. */
    private Place search(Part part, K key, Keys.Shared name, boolean meets, long now) {
        byte[] beside = codec.payload(key);
        int reach = part.reach(name);
        int free = -1;
        int taken = 0;
        for (int number = 0; number < reach; number++) {
            byte[] text = name.place(number);
            byte[] row = live(part, name, text, meets, now);
            if (row != null && key.equals(codec.object(Codec.keyPayload(row)))) {
                return new Place(part, name, text, beside, row);
            }
            if (row == null && free < 0) {
                free = number;
            }
            taken = row != null || part.isTaken(text) ? number + 1 : taken;
        }
        int number = free < 0 ? reach : free;
        part.setReach(name, Math.max(taken, number + 1));
        return new Place(part, name, name.place(number), beside, null);
    }

    // Rows that are to be stored.

    /** The row of a value at a place; null where it has too many bytes and is skipped. */
    byte[] row(Place place, byte[] payload, long moment) {
        byte[] row = Codec.row(payload, place.beside, expiry.isOwn(), moment);
        return fits(row.length) ? row : null;
    }

    /** The row of a value of a key that is its own text, where the engine knows when it expires. */
    byte[] row(V value) {
        byte[] row = codec.payload(value);
        return fits(row.length) ? row : null;
    }

    /** Refuses a value that does not fit, before anything is done. */
    void checkFits(Place place, byte[] payload) {
        fits(Codec.row(payload, place.beside, expiry.isOwn(), 0).length);
    }

    private boolean fits(int bytes) {
        if (bytes > maxValue && !skipsOversize) {
            throw new CacheException("an entry's value has " + bytes + " bytes as it is stored, more than " + maxValue);
        }
        return bytes <= maxValue;
    }

    void countSkipped() {
        skipped.incrementAndGet();
    }

    /** How many values were not stored for their size. */
    long skipped() {
        return skipped.get();
    }

    void close() {
        for (Part part : parts) {
            part.close();
        }
    }
}
