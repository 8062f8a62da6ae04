package jcache.jsr107;

import com.github.benmanes.caffeine.cache.Caffeine;
import java.lang.management.ManagementFactory;
import java.lang.management.ThreadMXBean;
import java.util.ArrayList;
import java.util.List;
import java.util.concurrent.atomic.AtomicLong;
import java.util.function.IntConsumer;
import java.util.function.IntFunction;
import javax.cache.Cache;
import javax.cache.CacheManager;
import javax.cache.Caching;
import javax.cache.configuration.MutableConfiguration;

/**
 * Gets and puts by String keys with values of 100 letters: the provider, and Caffeine with the same codec, so that both
 * store by value; then what the codec alone takes, and a crossing that does next to nothing. Processor time and calls a
 * second, on one thread and on four.
 */
final class Calls {
    private static final int KEYS = 5_000;
    private static final int BATCH = 100;
    private static final long WARM = 2_000;
    private static final long LONG = 3_000;
    private static final ThreadMXBean THREADS = ManagementFactory.getThreadMXBean();

    private final String[] keys = new String[KEYS];
    private final String[] values = new String[KEYS];
    private volatile Object seen;

    /** What is measured: a get and a put of the key of a number. */
    private record Measured(String name, IntFunction<Object> get, IntConsumer put) {}

    private Calls() {
        for (int i = 0; i < KEYS; i++) {
            keys[i] = "user:" + (1_000_000 + i);
            values[i] = ("value " + i + " ").repeat(20).substring(0, 100);
        }
    }

    public static void main(String[] words) throws InterruptedException {
        Calls calls = new Calls();
        System.out.println("| | get, 1 thread | put, 1 thread | get, 4 threads | put, 4 threads |");
        System.out.println("|---|---|---|---|---|");
        try (CacheManager manager = Caching.getCachingProvider().getCacheManager()) {
            for (Measured each : calls.all(manager)) {
                calls.measure(each);
            }
        }
    }

    private List<Measured> all(CacheManager manager) {
        Codec codec = new Codec(new JavaSerializer(JavaSerializer.declared(String.class)), Calls.class.getClassLoader());
        Cache<String, String> ours = manager.createCache("calls",
                new MutableConfiguration<String, String>().setTypes(String.class, String.class));
        com.github.benmanes.caffeine.cache.Cache<String, byte[]> caffeine = Caffeine.newBuilder().maximumSize(10_000)
                .build();
        byte[] row = codec.payload(values[0]);
        Part part = new Part(new byte[16], 1, Expiry.of(new javax.cache.expiry.EternalExpiryPolicy()), false, false, null);
        byte[] missing = Keys.own("missing");
        return List.of(
                new Measured("the provider", i -> ours.get(keys[i]), i -> ours.put(keys[i], values[i])),
                new Measured("Caffeine by value", i -> codec.value(caffeine.getIfPresent(keys[i])),
                        i -> caffeine.put(keys[i], codec.payload(values[i]))),
                new Measured("the codec alone", i -> {
                    seen = Keys.own(keys[i]);
                    return codec.value(row);
                }, i -> {
                    seen = Keys.own(keys[i]);
                    seen = codec.payload(values[i]);
                }),
                new Measured("a crossing that finds nothing", i -> part.contains(missing, 0), i -> part.contains(missing,
                        0)));
    }

    private void measure(Measured measured) throws InterruptedException {
        for (int i = 0; i < KEYS; i++) {
            measured.put.accept(i);
        }
        StringBuilder line = new StringBuilder("| " + measured.name);
        for (int threads : new int[] {1, 4}) {
            line.append(column(threads, i -> seen = measured.get.apply(i)));
            line.append(column(threads, measured.put));
        }
        System.out.println(line + " |");
    }

    private String column(int threads, IntConsumer call) throws InterruptedException {
        run(threads, WARM, call);
        return run(threads, LONG, call);
    }

    private String run(int threads, long milliseconds, IntConsumer call) throws InterruptedException {
        AtomicLong calls = new AtomicLong();
        AtomicLong processor = new AtomicLong();
        long began = System.nanoTime();
        long end = began + 1_000_000 * milliseconds;
        List<Thread> all = new ArrayList<>();
        for (int number = 0; number < threads; number++) {
            int first = number * (KEYS / 4);
            Thread thread = new Thread(() -> {
                long before = THREADS.getCurrentThreadCpuTime();
                calls.addAndGet(callUntil(end, first, call));
                processor.addAndGet(THREADS.getCurrentThreadCpuTime() - before);
            });
            all.add(thread);
            thread.start();
        }
        for (Thread each : all) {
            each.join();
        }
        double millions = calls.get() * 1e3 / (System.nanoTime() - began);
        return String.format(" | %d ns, %.2f million/s", processor.get() / calls.get(), millions);
    }

    private static long callUntil(long end, int first, IntConsumer call) {
        long calls = 0;
        int key = first;
        while (System.nanoTime() < end) {
            for (int i = 0; i < BATCH; i++) {
                key = (key + 1_237) % KEYS;
                call.accept(key);
            }
            calls += BATCH;
        }
        return calls;
    }
}
