package checks;

import static checks.Check.holds;
import static checks.Check.same;
import static checks.Check.thrown;

import java.io.Serializable;
import java.math.BigDecimal;
import java.nio.charset.StandardCharsets;
import java.time.Instant;
import java.util.ArrayList;
import java.util.Arrays;
import java.util.List;
import java.util.Map;
import java.util.UUID;
import javax.cache.CacheException;
import javax.cache.configuration.MutableConfiguration;
import jcache.jsr107.Serializer;

/** Store-By-Value: what comes out is a copy, equal to what went in; what is too long; filters and serializers. */
final class ValueChecks {
    private static final String SECTION = "Store-By-Value";

    private ValueChecks() {}

    record Town(String name) implements Serializable {}

    record Person(String name, Town town) implements Serializable {}

    /** Writes a person as his name and his town's. */
    public static final class PersonSerializer implements Serializer {
        /** For the provider, by name. */
        public PersonSerializer() {}

        @Override
        public byte[] write(Object object) {
            Person person = (Person) object;
            return (person.name() + "," + person.town().name()).getBytes(StandardCharsets.UTF_8);
        }

        @Override
        public Object read(byte[] bytes, int from, ClassLoader classes) {
            String[] parts = new String(bytes, from, bytes.length - from, StandardCharsets.UTF_8).split(",");
            return new Person(parts[0], new Town(parts[1]));
        }
    }

    static void run() {
        for (Object value : List.of("", "text", "Grüße, 世界", "\ud800", 5, -5L, 2.5, 'c', true, new BigDecimal("1.10"),
                new UUID(3, 4), Instant.ofEpochMilli(5), List.of("a", 1), Map.of("k", List.of(2)), new Town("Ulm"))) {
            Check.that(SECTION, "a " + value.getClass().getSimpleName() + " comes out equal",
                    () -> Caches.with(Caches.objects(), cache -> {
                cache.put("k", value);
                same(value, cache.get("k"));
                same(value.getClass(), cache.get("k").getClass());
                holds(cache.replace("k", value, "w") && cache.get("k").equals("w"));
            }));
        }
        copies();
        compared();
        oversized();
        filtered();
    }

    private static void copies() {
        Check.that(SECTION, "what is changed after its put changes no entry", () -> Caches.with(Caches.objects(), cache -> {
            List<String> value = new ArrayList<>(List.of("a"));
            cache.put("k", value);
            value.add("b");
            same(List.of("a"), cache.get("k"));
        }));
        Check.that(SECTION, "what is changed after its get changes no entry", () -> Caches.with(Caches.objects(), cache -> {
            cache.put("k", new ArrayList<>(List.of("a")));
            @SuppressWarnings("unchecked")
            List<String> got = (List<String>) cache.get("k");
            got.add("b");
            same(List.of("a"), cache.get("k"));
        }));
        Check.that(SECTION, "bytes are copied both ways", () -> Caches.with(Caches.objects(), cache -> {
            byte[] value = {1, 2};
            cache.put("k", value);
            value[0] = 9;
            byte[] got = (byte[]) cache.get("k");
            holds(Arrays.equals(new byte[] {1, 2}, got));
            got[0] = 9;
            holds(Arrays.equals(new byte[] {1, 2}, (byte[]) cache.get("k")));
        }));
        Check.that(SECTION, "a value that is not Serializable is a CacheException, and changes nothing",
                () -> Caches.with(Caches.objects(), cache -> {
            cache.put("k", "v");
            thrown(CacheException.class, () -> cache.put("k", new Object()));
            same("v", cache.get("k"));
        }));
    }

    private static void compared() {
        Check.that("Cache.replace(key, old, new)", "values compare by equals, whatever their bytes",
                () -> Caches.with(Caches.objects(), cache -> {
            cache.put("k", new ArrayList<>(List.of(1)));
            holds(cache.replace("k", List.of(1), "w"));
            same("w", cache.get("k"));
        }));
        Check.that("Cache.remove(key, old)", "values compare by equals, whatever their bytes",
                () -> Caches.with(Caches.objects(), cache -> {
            cache.put("k", List.of(1));
            holds(!cache.remove("k", List.of(2)) && cache.remove("k", new ArrayList<>(List.of(1))));
        }));
        Check.that("ours, Cache.remove(key, old)", "bytes compare by what they are",
                () -> Caches.with(Caches.objects(), cache -> {
            cache.put("k", new byte[] {1});
            holds(!cache.remove("k", new byte[] {2}) && cache.remove("k", new byte[] {1}));
        }));
    }

    private static void oversized() {
        Check.that("ours, jcache.oversize", "65,534 letters fit", () -> Caches.with(Caches.texts(), cache -> {
            cache.put("k", "v".repeat(65_534));
            same("v".repeat(65_534), cache.get("k"));
            same("v".repeat(65_534), cache.getAndRemove("k"));
        }));
        Check.that("ours, jcache.oversize", "65,535 are refused, with their number, and change nothing",
                () -> Caches.with(Caches.texts().setStatisticsEnabled(true), cache -> {
            cache.put("k", "v");
            CacheException thrown = thrown(CacheException.class, () -> cache.put("k", "v".repeat(65_535)));
            holds(thrown.getMessage().contains("65536") && thrown.getMessage().contains("65535"));
            thrown(CacheException.class, () -> cache.replace("k", "v", "v".repeat(65_535)));
            thrown(CacheException.class, () -> cache.invoke("k", (entry, words) -> {
                entry.setValue("v".repeat(65_535));
                return null;
            }));
            same("v", cache.get("k"));
            same("1 0 1 0 0", Caches.counters(cache));
        }));
        Check.that("ours, jcache.max_value", "a value of as many bytes is stored, a longer one is refused",
                () -> Caches.with(Caches.texts(), cache -> {
            cache.put("k", "123456789");
            thrown(CacheException.class, () -> cache.put("k", "1234567890"));
            same("123456789", cache.get("k"));
        }, "jcache.max_value", "10"));
        Check.that("ours, jcache.oversize", "skip: not stored but counted, and what stood there goes",
                () -> Caches.with(Caches.texts().setStatisticsEnabled(true), cache -> {
            cache.put("k", "v");
            cache.put("k", "v".repeat(65_535));
            cache.putAll(Map.of("l", "v".repeat(65_535), "m", "w"));
            holds(!cache.containsKey("k") && !cache.containsKey("l"));
            same("w", cache.get("m"));
            same(2L, Caches.server().getAttribute(Caches.bean(cache, "CacheMemory"), "SkippedValues"));
        }, "jcache.oversize", "skip"));
    }

    private static void filtered() {
        MutableConfiguration<String, Person> persons = new MutableConfiguration<String, Person>().setTypes(String.class,
                Person.class);
        Person ann = new Person("Ann", new Town("Ulm"));
        Check.that("ours, jcache.filter", "a class below a value's that is not the declared one is refused at its put",
                () -> Caches.with(persons, cache -> {
            CacheException thrown = thrown(CacheException.class, () -> cache.put("k", ann));
            holds(thrown.getMessage().contains("jcache.filter") && thrown.getMessage().contains("Town"));
            holds(!cache.containsKey("k"));
            cache.put("k", new Person("Bob", null));
            same(new Person("Bob", null), cache.get("k"));
        }));
        Check.that("ours, jcache.filter", "a filter of one's own allows it", () -> Caches.with(persons, cache -> {
            cache.put("k", ann);
            same(ann, cache.get("k"));
        }, "jcache.filter", "checks.*;java.base/*;!*"));
        Check.that("ours, jcache.filter", "a filter of one's own refuses", () -> Caches.with(Caches.objects(), cache -> {
            thrown(CacheException.class, () -> cache.put("k", new Town("Ulm")));
            cache.put("k", "a text needs no serialization");
        }, "jcache.filter", "!*"));
        Check.that("ours, jcache.serializer", "a serializer of one's own", () -> Caches.with(persons, cache -> {
            cache.put("k", ann);
            same(ann, cache.get("k"));
            holds(cache.replace("k", ann, new Person("Eve", new Town("Bern"))));
        }, "jcache.serializer", "checks.ValueChecks$PersonSerializer"));
    }
}
