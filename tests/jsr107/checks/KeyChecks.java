package checks;

import static checks.Check.holds;
import static checks.Check.same;
import static checks.Check.thrown;

import java.io.Serializable;
import java.util.ArrayList;
import java.util.HashMap;
import java.util.HashSet;
import java.util.List;
import java.util.Locale;
import java.util.Map;
import java.util.Random;
import java.util.Set;
import java.util.UUID;
import java.util.concurrent.TimeUnit;
import javax.cache.Cache;
import javax.cache.CacheException;
import javax.cache.configuration.MutableConfiguration;
import javax.cache.expiry.CreatedExpiryPolicy;
import javax.cache.expiry.Duration;
import javax.cache.expiry.EternalExpiryPolicy;
import javax.cache.expiry.ExpiryPolicy;

/** Keys compare by equals (JSR 107, Cache and Map): those of one hash code, long ones, and odd ones. */
final class KeyChecks {
    private static final String SECTION = "Keys by equals";

    private KeyChecks() {}

    /** Keys that all have one hash code. */
    record Colliding(int number) implements Serializable {
        @Override
        public int hashCode() {
            return 7;
        }
    }

    /** Equal where the text is the same in small letters; so equal keys have different bytes. */
    static final class Name implements Serializable {
        private static final long serialVersionUID = 1;
        private final String text;

        Name(String text) {
            this.text = text;
        }

        @Override
        public boolean equals(Object other) {
            return other instanceof Name name && name.text.equalsIgnoreCase(text);
        }

        @Override
        public int hashCode() {
            return text.toLowerCase(Locale.ROOT).hashCode();
        }
    }

    static void run() {
        plain();
        equal();
        colliding();
        evicted();
        expired();
    }

    private static MutableConfiguration<Object, Object> objects() {
        return Caches.objects();
    }

    /** A key is stored, found, given by an iterator, and removed. */
    private static void serves(String what, Object key) {
        Check.that(SECTION, what, () -> Caches.with(objects(), cache -> {
            holds(!cache.containsKey(key));
            cache.put(key, "v");
            same("v", cache.get(key));
            same(Map.of(key, "v"), cache.getAll(Set.of(key)));
            same(key, cache.iterator().next().getKey());
            holds(!cache.putIfAbsent(key, "w") && cache.replace(key, "v", "w"));
            same("w", cache.getAndPut(key, "x"));
            holds(cache.remove(key) && !cache.containsKey(key));
        }));
    }

    private static void plain() {
        serves("an empty text", "");
        serves("a text beyond ASCII", "Grüße, 世界");
        serves("a text of 62 bytes", "k".repeat(62));
        serves("a text of 63 bytes", "k".repeat(63));
        serves("a text of 40 letters of two bytes", "é".repeat(40));
        serves("a text of 10,000 letters", "k".repeat(10_000));
        serves("a text with half a pair of surrogates", "k\ud800k");
        serves("an Integer", -5);
        serves("a Long", Long.MIN_VALUE);
        serves("a UUID", new UUID(1, 2));
        serves("a record", new Colliding(1));
        serves("a list", List.of(1, "two", 3L));
        Check.that(SECTION, "1, 1L and \"1\" are three keys", () -> Caches.with(objects(), cache -> {
            cache.put(1, "int");
            cache.put(1L, "long");
            cache.put("1", "text");
            same(List.of("int", "long", "text"), List.of(cache.get(1), cache.get(1L), cache.get("1")));
        }));
        Check.that(SECTION, "texts with different halves of pairs are different", () -> Caches.with(objects(), cache -> {
            cache.put("k\ud800", 1);
            cache.put("k\ud801", 2);
            cache.put("k?", 3);
            same(List.of(1, 2, 3), List.of(cache.get("k\ud800"), cache.get("k\ud801"), cache.get("k?")));
        }));
        Check.that(SECTION, "a key that is not Serializable is a CacheException", () -> Caches.with(objects(), cache -> {
            Object key = new Object();
            thrown(CacheException.class, () -> cache.put(key, "v"));
            thrown(CacheException.class, () -> cache.get(key));
            holds(!cache.iterator().hasNext());
        }));
    }

    private static void equal() {
        Check.that(SECTION, "equal keys of different bytes are one key", () -> Caches.with(objects(), cache -> {
            cache.put(new Name("Ann"), "v");
            same("v", cache.get(new Name("ANN")));
            same("v", cache.getAndPut(new Name("ann"), "w"));
            holds(!cache.putIfAbsent(new Name("aNN"), "x"));
            same(1, size(cache));
            holds(cache.remove(new Name("anN")) && size(cache) == 0);
        }));
        Check.that(SECTION, "equal lists of different classes are one key", () -> Caches.with(objects(), cache -> {
            cache.put(new ArrayList<>(List.of(1, 2)), "v");
            same("v", cache.get(List.of(1, 2)));
            cache.put(List.of(1, 2), "w");
            same(1, size(cache));
        }));
        Check.that("Store-By-Value", "a key that is changed after its put changes no entry",
                () -> Caches.with(objects(), cache -> {
            List<Integer> key = new ArrayList<>(List.of(1));
            cache.put(key, "v");
            key.add(2);
            holds(!cache.containsKey(key));
            same("v", cache.get(List.of(1)));
        }));
    }

    private static int size(Cache<?, ?> cache) {
        int size = 0;
        for (Cache.Entry<?, ?> entry : cache) {
            size += entry.getKey() == null ? 0 : 1;
        }
        return size;
    }

    private static void colliding() {
        Check.that(SECTION, "100 keys of one hash code", () -> Caches.with(objects(), cache -> {
            Map<Object, Object> wanted = new HashMap<>();
            for (int i = 0; i < 100; i++) {
                cache.put(new Colliding(i), i);
                wanted.put(new Colliding(i), i);
            }
            for (int i = 0; i < 100; i += 3) {
                holds(cache.remove(new Colliding(i)));
                wanted.remove(new Colliding(i));
            }
            for (int i = 1; i < 100; i += 7) {
                cache.put(new Colliding(i), -i);
                wanted.put(new Colliding(i), -i);
            }
            same(wanted, cache.getAll(allKeys(100)));
            same(wanted.size(), size(cache));
        }));
        Check.that(SECTION, "putAll, removeAll and invokeAll with keys of one hash code",
                () -> Caches.with(objects(), cache -> {
            Map<Object, Object> pairs = new HashMap<>();
            for (int i = 0; i < 70; i++) {
                pairs.put(new Colliding(i), i);
            }
            cache.putAll(pairs);
            same(70, cache.invokeAll(pairs.keySet(), (entry, words) -> entry.getValue()).size());
            cache.removeAll(allKeys(35));
            same(35, size(cache));
            holds(cache.containsKey(new Colliding(69)) && !cache.containsKey(new Colliding(34)));
        }));
    }

    private static Set<Object> allKeys(int count) {
        Set<Object> keys = new HashSet<>();
        for (int i = 0; i < count; i++) {
            keys.add(new Colliding(i));
        }
        return keys;
    }

    /** Random calls on more keys than there is room for: what is there is found, is the last put, and is there once. */
    private static void churns(String what, ExpiryPolicy policy, boolean ages) {
        Check.that(SECTION, what, () -> Caches.with(objects().setExpiryPolicyFactory(() -> policy), cache -> {
            Random random = new Random(3);
            Map<Object, Object> last = new HashMap<>();
            for (int i = 0; i < 3000; i++) {
                Colliding key = new Colliding(random.nextInt(40));
                switch (random.nextInt(4)) {
                    case 0 -> {
                        cache.remove(key);
                        last.remove(key);
                    }
                    case 1 -> {
                        Object got = cache.get(key);
                        holds(got == null || got.equals(last.get(key)));
                    }
                    default -> {
                        cache.put(key, i);
                        last.put(key, i);
                        same(i, cache.get(key));
                    }
                }
                Clock.pass(ages ? random.nextInt(4) : 0);
                if (i % 100 == 0) {
                    isSound(cache, last);
                }
            }
        }, "jcache.capacity", "16"));
    }

    private static void isSound(Cache<Object, Object> cache, Map<Object, Object> last) {
        Set<Object> seen = new HashSet<>();
        for (Cache.Entry<Object, Object> entry : cache) {
            holds(seen.add(entry.getKey()));
            holds(cache.containsKey(entry.getKey()));
            same(last.get(entry.getKey()), entry.getValue());
        }
    }

    private static void evicted() {
        churns("keys of one hash code under eviction", new EternalExpiryPolicy(), false);
        churns("keys of one hash code under eviction and expiry", new CreatedExpiryPolicy(new Duration(
                TimeUnit.MILLISECONDS, 20)), true);
        churns("keys of one hash code under eviction and a policy of one's own", new ExpiryChecks.Own(new Duration(
                TimeUnit.MILLISECONDS, 20), null, null), true);
    }

    private static void expired() {
        MutableConfiguration<Object, Object> configuration = objects()
                .setExpiryPolicyFactory(CreatedExpiryPolicy.factoryOf(Caches.SHORT));
        Check.that(SECTION, "an expired entry hides none behind it, and no key gets two",
                () -> Caches.with(configuration, cache -> {
            cache.put(new Colliding(1), "a");
            Clock.pass(60);
            cache.put(new Colliding(2), "b");
            cache.put(new Colliding(3), "c");
            Clock.pass(60);
            holds(!cache.containsKey(new Colliding(1)));
            same("b", cache.get(new Colliding(2)));
            cache.put(new Colliding(3), "d");
            cache.put(new Colliding(4), "e");
            same(3, size(cache));
            same(Map.of(new Colliding(2), "b", new Colliding(3), "d", new Colliding(4), "e"), cache.getAll(allKeys(9)));
        }));
        Check.that(SECTION, "a removed entry hides none behind it, and no key gets two",
                () -> Caches.with(objects(), cache -> {
            for (int i = 0; i < 5; i++) {
                cache.put(new Colliding(i), i);
            }
            cache.remove(new Colliding(0));
            cache.remove(new Colliding(2));
            cache.put(new Colliding(4), "new");
            holds(cache.remove(new Colliding(4)) && !cache.containsKey(new Colliding(4)));
            same(Map.of(new Colliding(1), 1, new Colliding(3), 3), cache.getAll(allKeys(9)));
        }));
    }
}
