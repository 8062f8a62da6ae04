package checks;

import static checks.Caches.gives;
import static checks.Check.holds;
import static checks.Check.same;

import java.util.ArrayList;
import java.util.Collection;
import java.util.HashMap;
import java.util.List;
import java.util.Map;
import java.util.Random;
import java.util.Set;
import java.util.concurrent.ConcurrentHashMap;
import java.util.concurrent.CountDownLatch;
import java.util.concurrent.TimeUnit;
import java.util.concurrent.atomic.AtomicInteger;
import java.util.concurrent.atomic.AtomicReference;
import javax.cache.Cache;
import javax.cache.configuration.MutableConfiguration;
import javax.cache.integration.CacheLoader;
import javax.cache.integration.CacheWriter;

/** Consistency: threads on one cache. */
final class ThreadChecks {
    private static final String SECTION = "Consistency";

    private ThreadChecks() {}

    /** Runs one body on each of some threads, and throws what one of them threw. */
    static void together(int threads, ThreadBody body) throws Exception {
        AtomicReference<Throwable> failure = new AtomicReference<>();
        List<Thread> all = new ArrayList<>();
        for (int i = 0; i < threads; i++) {
            int number = i;
            all.add(new Thread(() -> {
                try {
                    body.run(number);
                } catch (Throwable e) {
                    failure.compareAndSet(null, e);
                }
            }));
        }
        all.forEach(Thread::start);
        for (Thread each : all) {
            each.join();
        }
        if (failure.get() != null) {
            throw new AssertionError(failure.get());
        }
    }

    /** What a thread does. */
    interface ThreadBody {
        void run(int number) throws Exception;
    }

    static void run() {
        byModel("texts", number -> "k" + number, false);
        byModel("keys of one hash code", KeyChecks.Colliding::new, false);
        byModel("texts with a writer", number -> "k" + number, true);
        counts();
        comparesAndStores();
        loads();
        writes();
        others();
    }

    /** How a number is a key. */
    private interface Keyed {
        Object key(int number);
    }

    private static MutableConfiguration<Object, Object> configuration(CacheWriter<Object, Object> writer) {
        MutableConfiguration<Object, Object> configuration = Caches.objects();
        return writer == null ? configuration : configuration.setWriteThrough(true).setCacheWriterFactory(gives(writer));
    }

    /** Four threads, each with its own keys among the others': each reply is that of a map. */
    private static void byModel(String what, Keyed keyed, boolean writes) {
        int calls = what.startsWith("texts") ? 8000 : 800;
        Check.that(SECTION, "four threads against a model, " + what, () -> {
            Store store = new Store();
            Caches.with(configuration(writes ? store : null), cache -> {
                together(4, number -> {
                    Map<Object, Object> model = new HashMap<>();
                    Random random = new Random(number);
                    for (int i = 0; i < calls; i++) {
                        step(cache, model, keyed.key(number + 4 * random.nextInt(10)), random, i);
                    }
                    model.forEach((key, value) -> same(value, cache.get(key)));
                    if (writes) {
                        model.forEach((key, value) -> same(value, store.rows.get(key)));
                    }
                });
            });
        });
    }

    private static void step(Cache<Object, Object> cache, Map<Object, Object> model, Object key, Random random, int value) {
        switch (random.nextInt(9)) {
            case 0 -> same(model.containsKey(key), cache.containsKey(key));
            case 1 -> same(model.put(key, value), cache.getAndPut(key, value));
            case 2 -> same(model.putIfAbsent(key, value) == null, cache.putIfAbsent(key, value));
            case 3 -> same(model.remove(key), cache.getAndRemove(key));
            case 4 -> same(model.replace(key, value), cache.getAndReplace(key, value));
            case 5 -> same(model.remove(key, value - 9), cache.remove(key, value - 9));
            case 6 -> {
                Object old = model.getOrDefault(key, 0);
                same(model.replace(key, old, value), cache.replace(key, old, value));
            }
            case 7 -> {
                model.put(key, value);
                cache.invoke(key, (entry, words) -> {
                    entry.setValue(words[0]);
                    return null;
                }, value);
            }
            default -> same(model.get(key), cache.get(key));
        }
    }

    /** Keeps what is written. */
    private static final class Store implements CacheWriter<Object, Object> {
        private final Map<Object, Object> rows = new ConcurrentHashMap<>();

        @Override
        public void write(Cache.Entry<?, ?> entry) {
            rows.put(entry.getKey(), entry.getValue());
        }

        @Override
        public void writeAll(Collection<Cache.Entry<?, ?>> entries) {
            entries.forEach(this::write);
        }

        @Override
        public void delete(Object key) {
            rows.remove(key);
        }

        @Override
        public void deleteAll(Collection<?> keys) {
            keys.forEach(rows::remove);
        }
    }

    private static void counts() {
        Check.that(SECTION, "invoke is one step: four threads count together", () -> Caches.with(Caches.objects(), cache -> {
            together(4, number -> {
                for (int i = 0; i < 1000; i++) {
                    cache.invoke("n", (entry, words) -> {
                        entry.setValue(entry.exists() ? (Integer) entry.getValue() + 1 : 1);
                        return null;
                    });
                }
            });
            same(4000, cache.get("n"));
        }));
        Check.that(SECTION, "invoke and put: no put is lost", () -> Caches.with(Caches.objects(), cache -> {
            CountDownLatch inside = new CountDownLatch(1);
            cache.put("k", 1);
            Thread processing = new Thread(() -> cache.invoke("k", (entry, words) -> {
                Object value = entry.getValue();
                inside.countDown();
                pause(50);
                entry.setValue((Integer) value + 1);
                return null;
            }));
            processing.start();
            inside.await();
            cache.put("k", 10);
            processing.join();
            same(10, cache.get("k"));
        }));
    }

    private static void comparesAndStores() {
        Check.that(SECTION, "replace of the old value is one step", () -> Caches.with(Caches.objects(), cache -> {
            cache.put("n", 0);
            together(4, number -> {
                for (int i = 0; i < 500; i++) {
                    Integer old;
                    do {
                        old = (Integer) cache.get("n");
                    } while (!cache.replace("n", old, old + 1));
                }
            });
            same(2000, cache.get("n"));
        }));
        Check.that(SECTION, "putIfAbsent has one winner", () -> Caches.with(Caches.objects(), cache -> {
            AtomicInteger winners = new AtomicInteger();
            together(4, number -> {
                for (int i = 0; i < 500; i++) {
                    winners.addAndGet(cache.putIfAbsent("k" + i, number) ? 1 : 0);
                    winners.addAndGet(cache.putIfAbsent(new KeyChecks.Colliding(i % 20), number) ? 1 : 0);
                }
            });
            same(520, winners.get());
        }));
    }

    private static void pause(long milliseconds) {
        try {
            Thread.sleep(milliseconds);
        } catch (InterruptedException e) {
            throw new IllegalStateException(e);
        }
    }

    private static void loads() {
        Check.that("Integration, CacheLoader", "a key is loaded once for all threads that want it", () -> {
            AtomicInteger loads = new AtomicInteger();
            CacheLoader<Object, Object> slow = new CacheLoader<>() {
                @Override
                public Object load(Object key) {
                    loads.incrementAndGet();
                    pause(50);
                    return "v";
                }

                @Override
                public Map<Object, Object> loadAll(Iterable<?> keys) {
                    throw new IllegalStateException();
                }
            };
            Caches.with(Caches.objects().setReadThrough(true).setCacheLoaderFactory(gives(slow)), cache -> {
                together(8, number -> same("v", cache.get("k")));
                same(1, loads.get());
            });
        });
    }

    /** A writer that waits at one key until it may go on. */
    private static final class Waiting implements CacheWriter<Object, Object> {
        private final CountDownLatch inside = new CountDownLatch(1);
        private final CountDownLatch go = new CountDownLatch(1);

        @Override
        public void write(Cache.Entry<?, ?> entry) {
            if (entry.getKey().equals("slow")) {
                inside.countDown();
                try {
                    go.await(20, TimeUnit.SECONDS);
                } catch (InterruptedException e) {
                    throw new IllegalStateException(e);
                }
            }
        }

        @Override
        public void writeAll(Collection<Cache.Entry<?, ?>> entries) {
            entries.forEach(this::write);
        }

        @Override
        public void delete(Object key) {}

        @Override
        public void deleteAll(Collection<?> keys) {}
    }

    private static void writes() {
        Check.that("Integration, CacheWriter", "a slow writer stops no other key, and no get of its own", () -> {
            Waiting writer = new Waiting();
            Caches.with(configuration(writer), cache -> {
                Thread slow = new Thread(() -> cache.put("slow", "v"));
                slow.start();
                holds(writer.inside.await(20, TimeUnit.SECONDS));
                for (int i = 0; i < 100; i++) {
                    cache.put("k" + i, "v");
                }
                same(null, cache.get("slow"));
                holds(slow.isAlive());
                writer.go.countDown();
                slow.join();
                same("v", cache.get("slow"));
            });
        });
        Check.that("Integration, CacheWriter", "store and cache do not part", () -> {
            Store store = new Store();
            Caches.with(configuration(store), cache -> {
                together(4, number -> {
                    for (int i = 0; i < 2000; i++) {
                        String key = "k" + i % 3;
                        if (i % 5 == 0) {
                            cache.remove(key);
                        } else if (i % 7 == 0) {
                            cache.putAll(Map.of("k0", number, "k1", i, "k2", -i));
                        } else {
                            cache.put(key, number + " " + i);
                        }
                    }
                });
                for (String key : Set.of("k0", "k1", "k2")) {
                    same(store.rows.get(key), cache.get(key));
                }
            });
        });
    }

    private static void others() {
        Check.that("Cache.close", "beside calls: they end, or the cache is closed", () -> {
            for (int round = 0; round < 20; round++) {
                Caches.with(Caches.texts(), cache -> together(4, number -> {
                    try {
                        for (int i = 0; i < 2000; i++) {
                            cache.put("k" + i, "v");
                            cache.get("k" + i);
                            if (number == 0 && i == 100) {
                                cache.close();
                            }
                        }
                    } catch (IllegalStateException e) {
                        holds(cache.isClosed());
                    }
                }));
            }
        });
        Check.that("Cache.iterator", "beside changes: what stays is given once", () -> Caches.with(Caches.texts(), cache -> {
            for (int i = 0; i < 1000; i++) {
                cache.put("stays" + i, "v");
            }
            together(2, number -> {
                for (int i = 0; i < 20; i++) {
                    if (number == 0) {
                        List<String> seen = new ArrayList<>();
                        cache.forEach(entry -> seen.add(entry.getKey()));
                        same(1000L, seen.stream().filter(key -> key.startsWith("stays")).count());
                        same((long) seen.size(), seen.stream().distinct().count());
                    } else {
                        for (int k = 0; k < 500; k++) {
                            cache.put("goes" + k, "v");
                            cache.remove("goes" + (k - 5));
                        }
                    }
                }
            });
        }));
    }
}
