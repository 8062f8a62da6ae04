package jcache.jsr107;

import java.nio.ByteBuffer;
import java.nio.ByteOrder;
import java.util.ArrayList;
import java.util.List;
import java.util.Queue;
import java.util.concurrent.ConcurrentLinkedQueue;
import java.util.concurrent.CopyOnWriteArrayList;
import java.util.concurrent.ExecutorService;
import java.util.concurrent.Executors;
import java.util.concurrent.locks.ReentrantLock;
import javax.cache.Cache;
import javax.cache.configuration.CacheEntryListenerConfiguration;
import javax.cache.event.EventType;

/**
 * Tells listeners what happens, in the order in which it happened and with no lock of a part held. A call that made events
 * ends when its synchronous listeners have heard them, by this thread or by another that was telling already. A listener
 * may call the cache; what it waits for must not wait for events of the same cache.
 */
final class Telling<K, V> {
    private static final EventType[] KINDS = {EventType.CREATED, EventType.UPDATED, EventType.REMOVED, EventType.EXPIRED};

    /** What a thread's calls have made that is not told, and in how many calls it is whose bodies have not ended. */
    private static final class Own {
        private final List<Batch> batches = new ArrayList<>();
        private int depth;
    }

    /** What one crossing told. */
    private static final class Batch {
        private final byte[] notices;
        private final long now;
        private RuntimeException failure;

        Batch(byte[] notices, long now) {
            this.notices = notices;
            this.now = now;
        }
    }

    private final Cache<K, V> cache;
    private final Codec codec;
    /** Whether rows have moments of their own, which the engine does not know. */
    private final boolean hasMoments;
    private final List<Listener<K, V>> listeners = new CopyOnWriteArrayList<>();
    private final Queue<Batch> waiting = new ConcurrentLinkedQueue<>();
    private final ThreadLocal<Own> own = ThreadLocal.withInitial(Own::new);
    private final ReentrantLock turn = new ReentrantLock();
    private ExecutorService later;

    Telling(Cache<K, V> cache, Codec codec, boolean hasMoments) {
        this.cache = cache;
        this.codec = codec;
        this.hasMoments = hasMoments;
    }

    boolean hasListeners() {
        return !listeners.isEmpty();
    }

    void register(CacheEntryListenerConfiguration<K, V> configuration) {
        listeners.add(new Listener<>(configuration));
    }

    void deregister(CacheEntryListenerConfiguration<K, V> configuration) {
        for (Listener<K, V> each : listeners) {
            if (each.isOf(configuration)) {
                listeners.remove(each);
                each.close();
            }
        }
    }

    /** Takes what a crossing told, in the order of crossings. How many of its removals were of rows past their moment. */
    int add(byte[] notices, long now) {
        if (hasListeners()) {
            Batch batch = new Batch(notices, now);
            own.get().batches.add(batch);
            waiting.add(batch);
        }
        if (!hasMoments) {
            return 0;
        }
        int past = 0;
        for (Notice each : read(notices)) {
            past += each.kind == Native.REMOVED_ROW && Codec.isPast(each.before, now) ? 1 : 0;
        }
        return past;
    }

    /** A call's body begins. Whether its end is to be told. */
    boolean begin() {
        if (!hasListeners()) {
            return false;
        }
        own.get().depth++;
        return true;
    }

    /**
     * A call's body has ended: all that it made is told, and the first failure of a listener is thrown. A call from within
     * the user's code leaves that to the call around it, for that one holds its key.
     */
    void end() {
        Own mine = own.get();
        if (--mine.depth > 0) {
            return;
        }
        List<Batch> made = List.copyOf(mine.batches);
        own.remove();
        if (!made.isEmpty()) {
            tell(made);
        }
    }

    private void tell(List<Batch> made) {
        turn.lock();
        try {
            for (Batch batch = waiting.poll(); batch != null; batch = waiting.poll()) {
                tell(batch);
            }
        } finally {
            turn.unlock();
        }
        for (Batch batch : made) {
            if (batch.failure != null) {
                throw batch.failure;
            }
        }
    }

    private void tell(Batch batch) {
        try {
            List<Event<K, V>> events = events(batch);
            for (Listener<K, V> each : listeners) {
                if (each.isSynchronous()) {
                    tell(each, events, batch);
                } else {
                    later().execute(() -> tellLater(each, events));
                }
            }
        } catch (RuntimeException e) {
            batch.failure = e;
        }
    }

    private void tell(Listener<K, V> listener, List<Event<K, V>> events, Batch batch) {
        try {
            listener.tell(events);
        } catch (RuntimeException e) {
            batch.failure = batch.failure == null ? e : batch.failure;
        }
    }

    private void tellLater(Listener<K, V> listener, List<Event<K, V>> events) {
        try {
            listener.tell(events);
        } catch (RuntimeException e) {
            System.getLogger("jcache").log(System.Logger.Level.WARNING, "an asynchronous listener failed", e);
        }
    }

    private ExecutorService later() {
        if (later == null) {
            later = Executors.newSingleThreadExecutor(run -> {
                Thread thread = new Thread(run, "jcache-events-" + cache.getName());
                thread.setDaemon(true);
                return thread;
            });
        }
        return later;
    }

    // Notices as the natives write them.

    private record Notice(int kind, byte[] key, byte[] value, byte[] before) {}

    private static List<Notice> read(byte[] notices) {
        ByteBuffer in = ByteBuffer.wrap(notices).order(ByteOrder.LITTLE_ENDIAN);
        List<Notice> all = new ArrayList<>();
        while (in.hasRemaining()) {
            int kind = in.get();
            int has = in.get();
            all.add(new Notice(kind, part(in), (has & 1) != 0 ? part(in) : null, (has & 2) != 0 ? part(in) : null));
        }
        return all;
    }

    private static byte[] part(ByteBuffer in) {
        byte[] part = new byte[in.getInt()];
        in.get(part);
        return part;
    }

    @SuppressWarnings("unchecked")
    private List<Event<K, V>> events(Batch batch) {
        List<Event<K, V>> events = new ArrayList<>();
        for (Notice each : read(batch.notices)) {
            boolean isPast = each.kind == Native.REMOVED_ROW && Codec.isPast(each.before, batch.now);
            K key = (K) Keys.key(each.key, each.value != null ? each.value : each.before, codec);
            V value = each.value == null ? null : (V) codec.value(each.value);
            V before = each.before == null ? null : (V) codec.value(each.before);
            events.add(new Event<>(cache, isPast ? EventType.EXPIRED : KINDS[each.kind], key, value, before));
        }
        return events;
    }

    void close() {
        listeners.forEach(Listener::close);
        turn.lock();
        try {
            if (later != null) {
                later.shutdown();
            }
        } finally {
            turn.unlock();
        }
    }
}
