import com.github.benmanes.caffeine.cache.Cache;
import com.github.benmanes.caffeine.cache.Caffeine;
import java.lang.management.ManagementFactory;
import java.util.ArrayList;
import java.util.List;
import java.util.concurrent.CyclicBarrier;
import java.util.concurrent.atomic.AtomicInteger;
import java.util.function.Supplier;

/**
 * Caffeine's cache, which threads share: lookups and calls of many threads, as {@code jc_bench} does and prints them.
 * The work is done before it is timed, so that it is compiled. {@code KIND ROWS THREADS WRITERS CALLS}
 */
final class CaffeineMap {
    private record Key(int cache, String text) {}

    private record Counts(long yes, long no) {}

    private static final long UNTIMED = 1_000_000;

    private final Cache<Key, byte[]> cache;
    private final String kind;
    private final int threads;
    private final int writers;
    private final Key[] keys;
    private final Key[] own = numbered("own", 64);

    private CaffeineMap(String[] words) {
        int rows = Integer.parseInt(words[1]);
        kind = words[0];
        threads = Integer.parseInt(words[2]);
        writers = Integer.parseInt(words[3]);
        keys = numbered(kind.equals("miss") ? "mis" : "key", rows);
        cache = Caffeine.newBuilder().maximumSize(rows + 1000).build();
        for (Key key : numbered("key", rows)) {
            cache.put(key, value());
        }
    }

    private static Key[] numbered(String front, int count) {
        Key[] keys = new Key[count];
        for (int i = 0; i < count; i++) {
            keys[i] = new Key(0, String.format("%s-%06d", front, i));
        }
        return keys;
    }

    private static byte[] value() {
        return new byte[] {'v'};
    }

    private boolean ask(Key key) {
        switch (kind) {
            case "get":
                return cache.getIfPresent(key) != null;
            case "put":
                cache.put(key, value());
                return true;
            default:
                return cache.asMap().containsKey(key);
        }
    }

    private Counts askOften(long calls, long first) {
        long yes = 0;
        long number = first;
        for (long i = 0; i < calls; i++) {
            number = number * 6364136223846793005L + 1442695040888963407L;
            yes += ask(keys[(int) ((number >>> 33) % keys.length)]) ? 1 : 0;
        }
        return new Counts(yes, calls - yes);
    }

    private Counts writeMeanwhile(AtomicInteger busy) {
        long round = 0;
        for (; busy.get() > 0; round++) {
            cache.put(own[(int) (round % own.length)], value());
            cache.invalidate(own[(int) ((round + own.length / 2) % own.length)]);
        }
        return new Counts(2 * round, 0);
    }

    private static long processorNanoseconds() {
        return ManagementFactory.getThreadMXBean().getCurrentThreadCpuTime();
    }

    /** Does the work when all threads are ready. The result says what came of it, and how long it took. */
    private static String timed(String name, CyclicBarrier ready, Supplier<Counts> work) {
        try {
            ready.await();
        } catch (Exception broken) {
            throw new IllegalStateException(broken);
        }
        long used = processorNanoseconds();
        long start = System.nanoTime();
        Counts counts = work.get();
        long wall = System.nanoTime() - start;
        long processor = processorNanoseconds() - used;
        return String.format("%s yes=%d no=%d unsure=0 refused=0 wall=%d processor=%d",
                name, counts.yes(), counts.no(), wall, processor);
    }

    /** Does the work on all threads, each so often. */
    private void play(long calls, boolean printed) throws InterruptedException {
        CyclicBarrier ready = new CyclicBarrier(threads + writers);
        AtomicInteger busy = new AtomicInteger(threads);
        List<Thread> all = new ArrayList<>();
        for (int i = 0; i < threads + writers; i++) {
            int first = i;
            all.add(new Thread(() -> {
                boolean asks = first < threads;
                String line = asks
                        ? timed(kind, ready, () -> askOften(calls, first))
                        : timed("write", ready, () -> writeMeanwhile(busy));
                busy.addAndGet(asks ? -1 : 0);
                if (printed) {
                    System.out.println(line);
                }
            }));
        }
        for (Thread thread : all) {
            thread.start();
        }
        for (Thread thread : all) {
            thread.join();
        }
    }

    public static void main(String[] words) throws InterruptedException {
        CaffeineMap map = new CaffeineMap(words);
        map.play(UNTIMED, false);
        map.play(Long.parseLong(words[4]), true);
    }
}
