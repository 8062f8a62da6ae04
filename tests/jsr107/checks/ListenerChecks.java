package checks;

import static checks.Caches.gives;
import static checks.Check.holds;
import static checks.Check.same;
import static checks.Check.thrown;

import java.util.ArrayList;
import java.util.Arrays;
import java.util.Collections;
import java.util.List;
import java.util.Map;
import java.util.Set;
import java.util.concurrent.CountDownLatch;
import java.util.concurrent.TimeUnit;
import javax.cache.Cache;
import javax.cache.configuration.CacheEntryListenerConfiguration;
import javax.cache.configuration.MutableCacheEntryListenerConfiguration;
import javax.cache.configuration.MutableConfiguration;
import javax.cache.event.CacheEntryCreatedListener;
import javax.cache.event.CacheEntryEvent;
import javax.cache.event.CacheEntryEventFilter;
import javax.cache.event.CacheEntryListener;
import javax.cache.event.CacheEntryListenerException;
import javax.cache.event.CacheEntryRemovedListener;
import javax.cache.event.CacheEntryUpdatedListener;

/** Cache Entry Listeners: which events each method makes, what they say, who hears them and when. */
final class ListenerChecks {
    private static final String SECTION = "Cache Entry Listeners";

    private ListenerChecks() {}

    static CacheEntryListenerConfiguration<String, String> anyListener() {
        return of(new Notes(), null, true, true);
    }

    static CacheEntryListenerConfiguration<String, String> of(CacheEntryListener<String, String> listener,
            CacheEntryEventFilter<String, String> filter, boolean oldValue, boolean synchronous) {
        return new MutableCacheEntryListenerConfiguration<>(gives(listener), filter == null ? null : gives(filter),
                oldValue, synchronous);
    }

    /** A cache that a listener hears, by the checks' policy of 100 milliseconds from creation. */
    private static void heard(String what, List<String> wanted, Caches.CacheBody<String, String> body) {
        Check.that(SECTION, what, () -> {
            Notes notes = new Notes();
            MutableConfiguration<String, String> configuration = Caches.expiring()
                    .addCacheEntryListenerConfiguration(of(notes, null, true, true));
            Caches.with(configuration, cache -> {
                cache.put("k", "v");
                notes.heard.clear();
                body.run(cache);
                same(wanted, List.copyOf(notes.heard));
            });
        });
    }

    static void run() {
        single();
        conditional();
        many();
        expiry();
        configured();
        describes();
        registered();
        deregistered();
        failing();
        nested();
        afterAnError();
        laterOnes();
    }

    private static void single() {
        heard("put creates", List.of("CREATED l w null"), cache -> cache.put("l", "w"));
        heard("put updates", List.of("UPDATED k w v"), cache -> cache.put("k", "w"));
        heard("get tells nothing", List.of(), cache -> cache.get("k"));
        heard("containsKey tells nothing", List.of(), cache -> cache.containsKey("k"));
        heard("getAndPut creates", List.of("CREATED l w null"), cache -> cache.getAndPut("l", "w"));
        heard("getAndPut updates", List.of("UPDATED k w v"), cache -> cache.getAndPut("k", "w"));
        heard("remove removes, with the value that was", List.of("REMOVED k v v"), cache -> cache.remove("k"));
        heard("remove of a missing key tells nothing", List.of(), cache -> cache.remove("l"));
        heard("getAndRemove removes", List.of("REMOVED k v v"), cache -> cache.getAndRemove("k"));
        heard("invoke with setValue updates", List.of("UPDATED k w v"), cache -> cache.invoke("k", (entry, words) -> {
            entry.setValue("w");
            return null;
        }));
        heard("invoke with setValue creates", List.of("CREATED l w null"), cache -> cache.invoke("l", (entry, words) -> {
            entry.setValue("w");
            return null;
        }));
        heard("invoke with remove removes", List.of("REMOVED k v v"), cache -> cache.invoke("k", (entry, words) -> {
            entry.remove();
            return null;
        }));
        heard("invoke that only reads tells nothing", List.of(),
                cache -> cache.invoke("k", (entry, words) -> entry.getValue()));
    }

    private static void conditional() {
        heard("putIfAbsent creates", List.of("CREATED l w null"), cache -> cache.putIfAbsent("l", "w"));
        heard("putIfAbsent of a key that is there tells nothing", List.of(), cache -> cache.putIfAbsent("k", "w"));
        heard("replace updates", List.of("UPDATED k w v"), cache -> cache.replace("k", "w"));
        heard("replace of a missing key tells nothing", List.of(), cache -> cache.replace("l", "w"));
        heard("replace of the old value updates", List.of("UPDATED k w v"), cache -> cache.replace("k", "v", "w"));
        heard("replace of another value tells nothing", List.of(), cache -> cache.replace("k", "x", "w"));
        heard("getAndReplace updates", List.of("UPDATED k w v"), cache -> cache.getAndReplace("k", "w"));
        heard("remove of the old value removes", List.of("REMOVED k v v"), cache -> cache.remove("k", "v"));
        heard("remove of another value tells nothing", List.of(), cache -> cache.remove("k", "x"));
    }

    private static void many() {
        heard("putAll creates and updates", List.of("UPDATED k w v", "CREATED l x null"), cache -> {
            Map<String, String> pairs = new java.util.LinkedHashMap<>();
            pairs.put("k", "w");
            pairs.put("l", "x");
            cache.putAll(pairs);
        });
        heard("removeAll(keys) removes", List.of("REMOVED k v v"), cache -> cache.removeAll(Set.of("k", "l")));
        heard("removeAll() removes", List.of("REMOVED k v v"), Cache::removeAll);
        heard("clear tells nothing", List.of(), Cache::clear);
        heard("Iterator.remove removes", List.of("REMOVED k v v"), cache -> {
            var entries = cache.iterator();
            entries.next();
            entries.remove();
        });
        Check.that(SECTION, "an eviction tells nothing of the entry that went", () -> {
            Notes notes = new Notes();
            Caches.with(Caches.texts().addCacheEntryListenerConfiguration(of(notes, null, true, true)), cache -> {
                cache.put("a", "1");
                cache.put("b", "2");
                same(List.of("CREATED a 1 null", "CREATED b 2 null"), List.copyOf(notes.heard));
                holds(!cache.containsKey("a"));
            }, "jcache.capacity", "1");
        });
    }

    private static void expiry() {
        heard("a get of an expired entry tells its expiry", List.of("EXPIRED k v v"), cache -> {
            Clock.pass(100);
            cache.get("k");
        });
        heard("a put over an expired entry tells its expiry, and creates", List.of("EXPIRED k v v", "CREATED k w null"),
                cache -> {
            Clock.pass(100);
            cache.put("k", "w");
        });
        heard("removeAll() of an expired entry tells its expiry", List.of("EXPIRED k v v"), cache -> {
            Clock.pass(100);
            cache.removeAll();
        });
    }

    private static void configured() {
        Check.that("CacheEntryEvent.isOldValueAvailable", "not where it is not required", () -> {
            List<Object> seen = new ArrayList<>();
            CacheEntryUpdatedListener<String, String> listener = events -> events.forEach(each -> {
                seen.add(each.isOldValueAvailable());
                seen.add(each.getOldValue());
            });
            Caches.with(Caches.texts().addCacheEntryListenerConfiguration(of(listener, null, false, true)), cache -> {
                cache.put("k", "v");
                cache.put("k", "w");
                same(Arrays.asList(false, null), seen);
            });
        });
        Check.that("CacheEntryEventFilter.evaluate", "only what it admits is heard", () -> {
            Notes notes = new Notes();
            CacheEntryEventFilter<String, String> filter = event -> event.getKey().equals("a");
            Caches.with(Caches.texts().addCacheEntryListenerConfiguration(of(notes, filter, true, true)), cache -> {
                cache.putAll(Map.of("a", "1", "b", "2"));
                same(List.of("CREATED a 1 null"), List.copyOf(notes.heard));
            });
        });
    }

    private static void describes() {
        Check.that("CacheEntryListener", "hears only the kinds that it implements", () -> {
            List<String> heard = new ArrayList<>();
            CacheEntryRemovedListener<String, String> listener = events -> events.forEach(each -> heard.add(each.getKey()));
            Caches.with(Caches.texts().addCacheEntryListenerConfiguration(of(listener, null, true, true)), cache -> {
                cache.put("k", "v");
                cache.put("k", "w");
                same(List.of(), heard);
                cache.remove("k");
                same(List.of("k"), heard);
            });
        });
        Check.that("CacheEntryEvent.getSource", "the cache", () -> {
            List<Object> sources = new ArrayList<>();
            CacheEntryCreatedListener<String, String> listener = events -> events.forEach(each ->
                    sources.add(each.getSource()));
            Caches.with(Caches.texts().addCacheEntryListenerConfiguration(of(listener, null, true, true)), cache -> {
                cache.put("k", "v");
                holds(sources.size() == 1 && sources.get(0) == cache);
            });
        });
        Check.that("CacheEntryEvent.unwrap", "itself, and no other type", () -> {
            List<Object> seen = new ArrayList<>();
            CacheEntryCreatedListener<String, String> listener = events -> events.forEach(each -> {
                seen.add(each.unwrap(CacheEntryEvent.class) == each);
                try {
                    each.unwrap(String.class);
                } catch (IllegalArgumentException e) {
                    seen.add("refused");
                }
            });
            Caches.with(Caches.texts().addCacheEntryListenerConfiguration(of(listener, null, true, true)), cache -> {
                cache.put("k", "v");
                same(List.of(true, "refused"), seen);
            });
        });
    }

    private static void registered() {
        Check.that("Cache.registerCacheEntryListener", "hears from then on, and the entries stay",
                () -> Caches.with(Caches.expiring(), cache -> {
            Notes notes = new Notes();
            CacheEntryListenerConfiguration<String, String> configuration = of(notes, null, true, true);
            cache.put("a", "1");
            Clock.pass(40);
            cache.put("b", "2");
            cache.registerCacheEntryListener(configuration);
            same(Map.of("a", "1", "b", "2"), cache.getAll(Set.of("a", "b")));
            cache.put("b", "3");
            Clock.pass(60);
            holds(cache.get("a") == null && cache.get("b").equals("3"));
            Clock.pass(40);
            same(null, cache.get("b"));
            same(List.of("UPDATED b 3 2", "EXPIRED a 1 1", "EXPIRED b 3 3"), List.copyOf(notes.heard));
        }));
        Check.that("Cache.registerCacheEntryListener", "the counters go on", () -> {
            MutableConfiguration<String, String> counted = Caches.texts().setStatisticsEnabled(true);
            Caches.with(counted, cache -> {
                cache.put("k", "v");
                cache.get("k");
                cache.get("l");
                cache.registerCacheEntryListener(anyListener());
                cache.get("k");
                same("2 1 1 0 0", Caches.counters(cache));
            });
        });
    }

    private static void deregistered() {
        Check.that("Cache.deregisterCacheEntryListener", "hears no more, and is closed",
                () -> Caches.with(Caches.texts(), cache -> {
            Notes notes = new Notes();
            CacheEntryListenerConfiguration<String, String> configuration = of(notes, null, true, true);
            cache.registerCacheEntryListener(configuration);
            cache.put("k", "v");
            cache.deregisterCacheEntryListener(configuration);
            cache.put("k", "w");
            holds(notes.heard.size() == 1 && notes.isClosed);
        }));
        Check.that("Cache.registerCacheEntryListener", "twice is refused", () -> Caches.with(Caches.texts(), cache -> {
            CacheEntryListenerConfiguration<String, String> configuration = anyListener();
            cache.registerCacheEntryListener(configuration);
            thrown(IllegalArgumentException.class, () -> cache.registerCacheEntryListener(configuration));
        }));
        Check.that("CompleteConfiguration.getCacheEntryListenerConfigurations", "those that are registered",
                () -> Caches.with(Caches.texts(), cache -> {
            CacheEntryListenerConfiguration<String, String> configuration = anyListener();
            cache.registerCacheEntryListener(configuration);
            same(1, size(cache));
            cache.deregisterCacheEntryListener(configuration);
            same(0, size(cache));
        }));
    }

    private static int size(Cache<String, String> cache) {
        List<Object> seen = new ArrayList<>();
        Caches.configuration(cache).getCacheEntryListenerConfigurations().forEach(seen::add);
        return seen.size();
    }

    private static void failing() {
        Check.that(SECTION, "what a listener throws is a CacheEntryListenerException, and the change stands", () -> {
            CacheEntryCreatedListener<String, String> listener = events -> {
                throw new IllegalStateException("broken");
            };
            Caches.with(Caches.texts().addCacheEntryListenerConfiguration(of(listener, null, true, true)), cache -> {
                CacheEntryListenerException thrown = thrown(CacheEntryListenerException.class, () -> cache.put("k", "v"));
                same("broken", thrown.getCause().getMessage());
                same("v", cache.get("k"));
            });
        });
        Check.that(SECTION, "a listener that fails keeps no other from hearing", () -> {
            CacheEntryCreatedListener<String, String> broken = events -> {
                throw new IllegalStateException("broken");
            };
            Notes notes = new Notes();
            MutableConfiguration<String, String> both = Caches.texts().addCacheEntryListenerConfiguration(of(broken, null,
                    true, true))
                    .addCacheEntryListenerConfiguration(of(notes, null, true, true));
            Caches.with(both, cache -> {
                thrown(CacheEntryListenerException.class, () -> cache.put("k", "v"));
                same(1, notes.heard.size());
            });
        });
        Check.that(SECTION, "a listener may call the cache", () -> {
            List<Cache<String, String>> caches = new ArrayList<>();
            CacheEntryCreatedListener<String, String> listener = events -> events.forEach(each -> {
                if (each.getKey().equals("k")) {
                    caches.get(0).put("l", "of " + each.getKey());
                    caches.get(0).remove("k");
                }
            });
            Caches.with(Caches.texts().addCacheEntryListenerConfiguration(of(listener, null, true, true)), cache -> {
                caches.add(cache);
                cache.put("k", "v");
                same("of k", cache.get("l"));
                holds(!cache.containsKey("k"));
            });
        });
    }

    /** A call from within a processor is told when the processor's key is free: a listener may change that key. */
    private static void nested() {
        Check.that(SECTION, "a listener may change the key of a processor that calls the cache", () -> {
            List<String> order = Collections.synchronizedList(new ArrayList<>());
            List<Cache<String, String>> caches = new ArrayList<>();
            CacheEntryCreatedListener<String, String> listener = events -> events.forEach(each -> {
                order.add("hears " + each.getKey());
                if (each.getKey().equals("l")) {
                    caches.get(0).replace("k", "by the listener");
                }
            });
            Caches.with(Caches.texts(), cache -> {
                caches.add(cache);
                cache.put("k", "v");
                cache.registerCacheEntryListener(of(listener, null, true, true));
                cache.invoke("k", (entry, words) -> {
                    cache.put("l", "w");
                    order.add("processor ends");
                    return null;
                });
                same(List.of("processor ends", "hears l"), List.copyOf(order));
                same("by the listener", cache.get("k"));
            });
        });
    }

    private static void afterAnError() {
        Check.that(SECTION, "what follows a call that ended by an error is told", () -> {
            Notes notes = new Notes();
            CacheEntryListenerConfiguration<String, String> listener = of(notes, null, true, true);
            Caches.with(Caches.texts().addCacheEntryListenerConfiguration(listener), cache -> {
                thrown(AssertionError.class, () -> cache.invoke("k", (entry, words) -> {
                    throw new AssertionError();
                }));
                cache.put("k", "v");
                same(1, notes.heard.size());
            });
        });
    }

    private static void laterOnes() {
        Check.that("CacheEntryListenerConfiguration.isSynchronous",
                "an asynchronous listener hears in order, on another thread", () -> {
            List<String> heard = Collections.synchronizedList(new ArrayList<>());
            CountDownLatch all = new CountDownLatch(20);
            CacheEntryUpdatedListener<String, String> listener = events -> events.forEach(each -> {
                heard.add(each.getValue() + (Thread.currentThread().getName().startsWith("jcache-events") ? "" : " here"));
                all.countDown();
            });
            Caches.with(Caches.texts().addCacheEntryListenerConfiguration(of(listener, null, true, false)), cache -> {
                List<String> wanted = new ArrayList<>();
                cache.put("k", "first");
                for (int i = 0; i < 20; i++) {
                    cache.put("k", "v" + i);
                    wanted.add("v" + i);
                }
                holds(all.await(20, TimeUnit.SECONDS));
                same(wanted, List.copyOf(heard));
            });
        });
        Check.that("CacheEntryListenerConfiguration.isSynchronous", "a call ends when a synchronous listener has ended",
                () -> {
            boolean[] ended = {false};
            CacheEntryCreatedListener<String, String> listener = events -> {
                try {
                    Thread.sleep(50);
                } catch (InterruptedException e) {
                    throw new IllegalStateException(e);
                }
                ended[0] = true;
            };
            Caches.with(Caches.texts().addCacheEntryListenerConfiguration(of(listener, null, true, true)), cache -> {
                cache.put("k", "v");
                holds(ended[0]);
            });
        });
    }
}
