package checks;

import static checks.Check.holds;
import static checks.Check.same;

import java.util.ArrayList;
import java.util.List;
import java.util.Map;
import java.util.Set;
import java.util.concurrent.TimeUnit;
import javax.cache.Cache;
import javax.cache.configuration.Factory;
import javax.cache.configuration.MutableConfiguration;
import javax.cache.expiry.AccessedExpiryPolicy;
import javax.cache.expiry.CreatedExpiryPolicy;
import javax.cache.expiry.Duration;
import javax.cache.expiry.EternalExpiryPolicy;
import javax.cache.expiry.ExpiryPolicy;
import javax.cache.expiry.ModifiedExpiryPolicy;
import javax.cache.expiry.TouchedExpiryPolicy;

/** Expiry Policies: the five kinds, and what a policy of one's own is asked by which method. */
final class ExpiryChecks {
    private static final String SECTION = "Expiry Policies";

    private ExpiryChecks() {}

    /** Says what it is told to say, and notes what it is asked. */
    static class Own implements ExpiryPolicy {
        private final List<String> asked = new ArrayList<>();
        private final Duration creation;
        private final Duration access;
        private final Duration update;

        Own(Duration creation, Duration access, Duration update) {
            this.creation = creation;
            this.access = access;
            this.update = update;
        }

        @Override
        public Duration getExpiryForCreation() {
            asked.add("creation");
            return creation;
        }

        @Override
        public Duration getExpiryForAccess() {
            asked.add("access");
            return access;
        }

        @Override
        public Duration getExpiryForUpdate() {
            asked.add("update");
            return update;
        }
    }

    private static MutableConfiguration<String, String> by(ExpiryPolicy policy) {
        return Caches.texts().setExpiryPolicyFactory(() -> policy);
    }

    static void run() {
        standard();
        asked();
        own();
        ownElsewhere();
        zero();
    }

    /** After 60 ms something is done with an entry of 100 ms; is it there after another 60 ms? */
    private static void outlives(String what, Factory<ExpiryPolicy> policy, boolean wanted, Caches.CacheBody<String,
            String> body) {
        Check.that(SECTION, what, () -> Caches.with(Caches.texts().setExpiryPolicyFactory(policy), cache -> {
            cache.put("k", "v");
            Clock.pass(60);
            body.run(cache);
            Clock.pass(60);
            same(wanted, cache.containsKey("k"));
        }));
    }

    private static void standard() {
        Factory<ExpiryPolicy> created = CreatedExpiryPolicy.factoryOf(Caches.SHORT);
        Factory<ExpiryPolicy> accessed = AccessedExpiryPolicy.factoryOf(Caches.SHORT);
        Factory<ExpiryPolicy> modified = ModifiedExpiryPolicy.factoryOf(Caches.SHORT);
        Factory<ExpiryPolicy> touched = TouchedExpiryPolicy.factoryOf(Caches.SHORT);
        outlives("CreatedExpiryPolicy: a get prolongs nothing", created, false, cache -> cache.get("k"));
        outlives("CreatedExpiryPolicy: a put prolongs nothing", created, false, cache -> cache.put("k", "w"));
        outlives("AccessedExpiryPolicy: a get prolongs", accessed, true, cache -> cache.get("k"));
        outlives("AccessedExpiryPolicy: a put prolongs nothing", accessed, false, cache -> cache.put("k", "w"));
        outlives("ModifiedExpiryPolicy: a get prolongs nothing", modified, false, cache -> cache.get("k"));
        outlives("ModifiedExpiryPolicy: a put prolongs", modified, true, cache -> cache.put("k", "w"));
        outlives("TouchedExpiryPolicy: a get prolongs", touched, true, cache -> cache.get("k"));
        outlives("TouchedExpiryPolicy: a put prolongs", touched, true, cache -> cache.put("k", "w"));
        outlives("EternalExpiryPolicy: nothing expires", EternalExpiryPolicy.factoryOf(), true,
                cache -> Clock.pass(1_000_000));
        outlives("AccessedExpiryPolicy: containsKey prolongs nothing", accessed, false, cache -> cache.containsKey("k"));
        outlives("AccessedExpiryPolicy: getAll prolongs", accessed, true, cache -> cache.getAll(Set.of("k")));
        outlives("AccessedExpiryPolicy: an iterator that gives it prolongs", accessed, true,
                cache -> cache.iterator().next());
        outlives("AccessedExpiryPolicy: invoke that reads prolongs", accessed, true,
                cache -> cache.invoke("k", (entry, words) -> entry.getValue()));
        outlives("AccessedExpiryPolicy: invoke that reads nothing prolongs nothing", accessed, false,
                cache -> cache.invoke("k", (entry, words) -> null));
        outlives("AccessedExpiryPolicy: a replace of another value prolongs", accessed, true,
                cache -> cache.replace("k", "x", "w"));
        Check.that(SECTION, "an entry is there before its moment, and gone at it",
                () -> Caches.with(Caches.expiring(), cache -> {
            cache.put("k", "v");
            Clock.pass(99);
            same("v", cache.get("k"));
            Clock.pass(1);
            same(null, cache.get("k"));
        }));
    }

    private static final Duration LONG = new Duration(TimeUnit.HOURS, 1);

    /** What a policy is asked by a call on a cache that has an entry of the key k. */
    private static void asks(String what, List<String> wanted, Caches.CacheBody<String, String> body) {
        Check.that(SECTION, what, () -> {
            Own own = new Own(LONG, LONG, LONG);
            Caches.with(by(own), cache -> {
                cache.put("k", "v");
                own.asked.clear();
                body.run(cache);
                same(wanted, own.asked);
            });
        });
    }

    private static void asked() {
        asks("put of a new key asks for creation", List.of("creation"), cache -> cache.put("l", "w"));
        asks("put asks for update", List.of("update"), cache -> cache.put("k", "w"));
        asks("get asks for access", List.of("access"), cache -> cache.get("k"));
        asks("get of a missing key asks nothing", List.of(), cache -> cache.get("l"));
        asks("containsKey asks nothing", List.of(), cache -> cache.containsKey("k"));
        asks("getAll asks for access, key by key", List.of("access"), cache -> cache.getAll(Set.of("k", "l")));
        asks("getAndPut of a new key asks for creation", List.of("creation"), cache -> cache.getAndPut("l", "w"));
        asks("getAndPut asks for update", List.of("update"), cache -> cache.getAndPut("k", "w"));
        asks("getAndRemove asks nothing", List.of(), cache -> cache.getAndRemove("k"));
        asks("getAndReplace asks for update", List.of("update"), cache -> cache.getAndReplace("k", "w"));
        asks("getAndReplace of a missing key asks nothing", List.of(), cache -> cache.getAndReplace("l", "w"));
        asks("putAll asks for each", List.of("creation"), cache -> cache.putAll(Map.of("l", "w")));
        asks("putIfAbsent of a new key asks for creation", List.of("creation"), cache -> cache.putIfAbsent("l", "w"));
        asks("putIfAbsent asks nothing", List.of(), cache -> cache.putIfAbsent("k", "w"));
        asks("remove asks nothing", List.of(), cache -> cache.remove("k"));
        asks("remove of the old value asks nothing", List.of(), cache -> cache.remove("k", "v"));
        asks("remove of another value asks for access", List.of("access"), cache -> cache.remove("k", "x"));
        asks("removeAll(keys) asks nothing", List.of(), cache -> cache.removeAll(Set.of("k")));
        asks("removeAll() asks nothing", List.of(), Cache::removeAll);
        asks("replace asks for update", List.of("update"), cache -> cache.replace("k", "w"));
        asks("replace of the old value asks for update", List.of("update"), cache -> cache.replace("k", "v", "w"));
        asks("replace of another value asks for access", List.of("access"), cache -> cache.replace("k", "x", "w"));
        asks("an iterator asks for access", List.of("access"), cache -> cache.iterator().next());
        asks("invoke that reads asks for access", List.of("access"),
                cache -> cache.invoke("k", (entry, words) -> entry.getValue()));
        asks("invoke that reads nothing asks nothing", List.of(),
                cache -> cache.invoke("k", (entry, words) -> entry.exists()));
        asks("invoke that sets asks for update", List.of("update"), cache -> cache.invoke("k", (entry, words) -> {
            entry.setValue("w");
            return null;
        }));
        asks("invoke that sets a new key asks for creation", List.of("creation"),
                cache -> cache.invoke("l", (entry, words) -> {
            entry.setValue("w");
            return null;
        }));
    }

    private static void own() {
        Duration shortOne = Caches.SHORT;
        outlives("a policy of one's own: null after an access leaves the moment",
                () -> new Own(shortOne, null, null), false, cache -> cache.get("k"));
        outlives("a policy of one's own: an access sets the moment",
                () -> new Own(shortOne, LONG, null), true, cache -> cache.get("k"));
        outlives("a policy of one's own: an update sets the moment",
                () -> new Own(shortOne, null, LONG), true, cache -> cache.put("k", "w"));
        outlives("a policy of one's own: null after an update leaves the moment",
                () -> new Own(shortOne, LONG, null), false, cache -> cache.put("k", "w"));
        outlives("a policy of one's own: an eternal creation",
                () -> new Own(Duration.ETERNAL, null, null), true, cache -> Clock.pass(1_000_000));
        Check.that(SECTION, "a policy of one's own: an entry past its moment goes as expired", () -> {
            Notes notes = new Notes();
            MutableConfiguration<String, String> configuration = by(new Own(shortOne, null, null)).setStatisticsEnabled(true)
                    .addCacheEntryListenerConfiguration(ListenerChecks.of(notes, null, true, true));
            Caches.with(configuration, cache -> {
                cache.put("k", "v");
                cache.put("l", "w");
                notes.heard.clear();
                Clock.pass(100);
                holds(!cache.containsKey("k") && notes.heard.isEmpty());
                same(null, cache.get("k"));
                cache.removeAll();
                same(List.of("EXPIRED k v v", "EXPIRED l w w"), List.copyOf(notes.heard));
                same("0 1 2 0 0", Caches.counters(cache));
            });
        });
    }

    private static void ownElsewhere() {
        Check.that(SECTION, "a policy of one's own: an iterator passes entries over that are past their moment",
                () -> Caches.with(by(new Own(Caches.SHORT, null, null)), cache -> {
            cache.put("k", "v");
            Clock.pass(100);
            cache.put("l", "w");
            var entries = cache.iterator();
            same("l", entries.next().getKey());
            holds(!entries.hasNext());
        }));
        Check.that(SECTION, "a policy of one's own that fails makes entries that never expire",
                () -> Caches.with(by(new Own(null, null, null) {
            @Override
            public Duration getExpiryForCreation() {
                throw new IllegalStateException("broken");
            }
        }), cache -> {
            cache.put("k", "v");
            Clock.pass(1_000_000);
            same("v", cache.get("k"));
        }));
        Check.that(SECTION, "a policy of one's own may call the cache", () -> {
            List<Cache<String, String>> caches = new ArrayList<>();
            ExpiryPolicy calling = new Own(LONG, null, null) {
                @Override
                public Duration getExpiryForUpdate() {
                    caches.get(0).put("l", "w");
                    return LONG;
                }
            };
            Caches.with(by(calling), cache -> {
                caches.add(cache);
                cache.put("k", "v");
                cache.put("k", "w");
                same("w", cache.get("l"));
            });
        });
    }

    private static void zero() {
        Duration zero = Duration.ZERO;
        for (ExpiryPolicy policy : List.of(new CreatedExpiryPolicy(zero), new Own(zero, null, null))) {
            String kind = policy instanceof Own ? "a policy of one's own: " : "CreatedExpiryPolicy: ";
            Check.that(SECTION, kind + "a zero duration on creation adds no entry and counts no put", () -> {
                Notes notes = new Notes();
                Caches.with(by(policy).setStatisticsEnabled(true)
                        .addCacheEntryListenerConfiguration(ListenerChecks.of(notes, null, true, true)), cache -> {
                    cache.put("k", "v");
                    same(null, cache.getAndPut("k", "v"));
                    holds(cache.putIfAbsent("k", "v"));
                    holds(!cache.containsKey("k") && notes.heard.isEmpty());
                    same("0 2 0 0 0", Caches.counters(cache));
                });
            });
        }
        Check.that(SECTION, "a zero duration after an update expires the entry",
                () -> Caches.with(by(new Own(LONG, null, zero)), cache -> {
            cache.put("k", "v");
            cache.put("k", "w");
            holds(!cache.containsKey("k"));
            same(null, cache.get("k"));
        }));
        Check.that(SECTION, "a zero duration after an access gives the value once more",
                () -> Caches.with(by(new Own(LONG, zero, null)), cache -> {
            cache.put("k", "v");
            same("v", cache.get("k"));
            same(null, cache.get("k"));
        }));
    }
}
