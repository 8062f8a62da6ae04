package checks;

import static checks.Check.holds;
import static checks.Check.same;

import java.io.IOException;
import java.nio.file.Files;
import java.nio.file.Path;
import java.util.HashSet;
import java.util.List;
import java.util.Map;
import java.util.Random;
import javax.cache.Cache;
import javax.cache.configuration.MutableCacheEntryListenerConfiguration;
import javax.cache.configuration.MutableConfiguration;
import javax.cache.event.CacheEntryRemovedListener;
import javax.cache.expiry.CreatedExpiryPolicy;

/** Eight threads for a minute on one cache: what it takes of native memory does not grow. */
public final class Growth {
    private static final long ROUND = 15_000;

    private Growth() {}

    public static void main(String[] words) {
        Check.that("ours, memory", "eight threads for a minute, without growth of native memory", () -> {
            MutableConfiguration<Object, Object> configuration = Caches.objects().setStatisticsEnabled(true)
                    .setExpiryPolicyFactory(CreatedExpiryPolicy.factoryOf(Caches.SHORT))
                    .addCacheEntryListenerConfiguration(new MutableCacheEntryListenerConfiguration<>(
                            Caches.gives((CacheEntryRemovedListener<Object, Object>) events -> {}), null, true, true));
            Caches.with(configuration, cache -> {
                work(cache);
                long bytes = bytes(cache);
                long resident = resident();
                for (int round = 0; round < 3; round++) {
                    work(cache);
                }
                holds(bytes(cache) < 1.2 * bytes);
                holds(resident() < resident + 64_000_000);
                cache.clear();
                cache.put("k", "v");
                same("v", cache.get("k"));
            }, "jcache.capacity", "2000", "jcache.clock", "checks.Clock");
        });
        Check.end();
    }

    private static void work(Cache<Object, Object> cache) throws Exception {
        long end = System.currentTimeMillis() + ROUND;
        ThreadChecks.together(8, number -> {
            Random random = new Random(number);
            while (System.currentTimeMillis() < end) {
                call(cache, random, random.nextBoolean() ? "k" + random.nextInt(5000)
                        : new KeyChecks.Colliding(random.nextInt(5)));
                if (random.nextInt(100) == 0) {
                    Clock.pass(1);
                }
            }
        });
    }

    private static void call(Cache<Object, Object> cache, Random random, Object key) {
        switch (random.nextInt(8)) {
            case 0 -> cache.get(key);
            case 1 -> cache.getAndRemove(key);
            case 2 -> cache.getAll(new HashSet<>(List.of(key, "k0", "k2")));
            case 3 -> cache.putAll(Map.of(key, "v", "l", "w"));
            case 4 -> cache.invoke(key, (entry, arguments) -> {
                entry.setValue(entry.exists() ? "there" : "v".repeat(random.nextInt(3000)));
                return null;
            });
            case 5 -> cache.replace(key, "there", "w");
            default -> cache.put(key, "v".repeat(random.nextInt(200)));
        }
    }

    private static long bytes(Cache<?, ?> cache) throws Exception {
        return (Long) Caches.server().getAttribute(Caches.bean(cache, "CacheMemory"), "Bytes");
    }

    /** Bytes of the process that lie in memory. */
    private static long resident() throws IOException {
        return 4096 * Long.parseLong(Files.readString(Path.of("/proc/self/statm")).split(" ")[1]);
    }
}
