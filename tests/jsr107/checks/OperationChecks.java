package checks;

import static checks.Check.holds;
import static checks.Check.same;
import static checks.Check.thrown;

import java.util.Collections;
import java.util.HashMap;
import java.util.HashSet;
import java.util.LinkedHashMap;
import java.util.Map;
import java.util.Set;
import java.util.function.Consumer;
import javax.cache.Cache;
import javax.cache.CacheManager;
import javax.cache.configuration.MutableConfiguration;
import javax.cache.processor.EntryProcessor;

/** What each method of Cache answers, and what it refuses. */
final class OperationChecks {
    /** A call of a method. */
    private interface Call {
        void on(Cache<String, String> cache) throws Exception;
    }

    private static final EntryProcessor<String, String, Object> NOTHING = (entry, words) -> null;

    private OperationChecks() {}

    static void run() {
        one();
        getAnd();
        conditional();
        many();
        names();
        closed();
        nulls();
        types();
    }

    private static void on(String method, String what, Caches.CacheBody<String, String> body) {
        Check.that("Cache." + method, what, () -> Caches.with(Caches.texts(), body));
    }

    private static void one() {
        on("get", "null where there is no entry", cache -> same(null, cache.get("k")));
        on("put", "get gives what was put", cache -> {
            cache.put("k", "v");
            same("v", cache.get("k"));
        });
        on("put", "replaces what is there", cache -> {
            cache.put("k", "v");
            cache.put("k", "w");
            same("w", cache.get("k"));
        });
        on("containsKey", "false, then true", cache -> {
            holds(!cache.containsKey("k"));
            cache.put("k", "v");
            holds(cache.containsKey("k"));
        });
    }

    private static void getAnd() {
        on("getAndPut", "null, then the value before", cache -> {
            same(null, cache.getAndPut("k", "v"));
            same("v", cache.getAndPut("k", "w"));
            same("w", cache.get("k"));
        });
        on("putIfAbsent", "stores where there is no entry", cache -> {
            holds(cache.putIfAbsent("k", "v"));
            holds(!cache.putIfAbsent("k", "w"));
            same("v", cache.get("k"));
        });
        on("remove", "true where there was an entry", cache -> {
            cache.put("k", "v");
            holds(cache.remove("k"));
            holds(!cache.remove("k") && !cache.containsKey("k"));
        });
        on("getAndRemove", "the value before, then null", cache -> {
            cache.put("k", "v");
            same("v", cache.getAndRemove("k"));
            same(null, cache.getAndRemove("k"));
        });
        on("getAndReplace", "null and no entry, then the value before", cache -> {
            same(null, cache.getAndReplace("k", "v"));
            holds(!cache.containsKey("k"));
            cache.put("k", "v");
            same("v", cache.getAndReplace("k", "w"));
            same("w", cache.get("k"));
        });
    }

    private static void conditional() {
        on("replace(key, value)", "stores where there is an entry", cache -> {
            holds(!cache.replace("k", "v") && !cache.containsKey("k"));
            cache.put("k", "v");
            holds(cache.replace("k", "w"));
            same("w", cache.get("k"));
        });
        on("replace(key, old, new)", "stores where the value is the old one", cache -> {
            holds(!cache.replace("k", "v", "w"));
            cache.put("k", "v");
            holds(!cache.replace("k", "x", "w"));
            same("v", cache.get("k"));
            holds(cache.replace("k", "v", "w"));
            same("w", cache.get("k"));
        });
        on("remove(key, old)", "removes where the value is the old one", cache -> {
            holds(!cache.remove("k", "v"));
            cache.put("k", "v");
            holds(!cache.remove("k", "x") && cache.containsKey("k"));
            holds(cache.remove("k", "v") && !cache.containsKey("k"));
        });
    }

    private static Map<String, String> pairs(int count) {
        Map<String, String> pairs = new LinkedHashMap<>();
        for (int i = 0; i < count; i++) {
            pairs.put("k" + i, "v" + i);
        }
        return pairs;
    }

    private static void many() {
        on("putAll", "stores all, also more than one crossing takes", cache -> {
            cache.putAll(pairs(200));
            same(pairs(200), cache.getAll(pairs(200).keySet()));
        });
        on("getAll", "the keys that have entries", cache -> {
            cache.put("a", "1");
            cache.put("c", "3");
            same(Map.of("a", "1", "c", "3"), cache.getAll(Set.of("a", "b", "c")));
        });
        on("getAll", "of no keys nothing", cache -> same(Map.of(), cache.getAll(Set.of())));
        on("removeAll(keys)", "the keys alone", cache -> {
            cache.putAll(pairs(200));
            Set<String> some = new HashSet<>(pairs(150).keySet());
            cache.removeAll(some);
            holds(!cache.containsKey("k0") && !cache.containsKey("k149") && cache.containsKey("k150"));
        });
        on("removeAll(keys)", "of no keys nothing", cache -> {
            cache.put("k", "v");
            cache.removeAll(Set.of());
            holds(cache.containsKey("k"));
        });
        on("removeAll()", "all", cache -> {
            cache.putAll(pairs(100));
            cache.removeAll();
            holds(!cache.iterator().hasNext());
        });
        on("clear", "all", cache -> {
            cache.putAll(pairs(100));
            cache.clear();
            holds(!cache.iterator().hasNext());
        });
        on("putAll", "of no pairs nothing", cache -> {
            cache.putAll(Map.of());
            holds(!cache.iterator().hasNext());
        });
    }

    private static void names() {
        on("getName", "its name", cache -> same("cache", cache.getName()));
        on("getCacheManager", "its manager",
                cache -> holds(cache.getCacheManager().<String, String>getCache("cache") == cache));
        on("unwrap", "itself, and no other type", cache -> {
            holds(cache.unwrap(Cache.class) == cache);
            thrown(IllegalArgumentException.class, () -> cache.unwrap(String.class));
        });
    }

    private static Map<String, Call> calls() {
        Map<String, Call> calls = new LinkedHashMap<>();
        calls.put("get", cache -> cache.get("k"));
        calls.put("getAll", cache -> cache.getAll(Set.of("k")));
        calls.put("containsKey", cache -> cache.containsKey("k"));
        calls.put("loadAll", cache -> cache.loadAll(Set.of("k"), true, null));
        calls.put("put", cache -> cache.put("k", "v"));
        calls.put("getAndPut", cache -> cache.getAndPut("k", "v"));
        calls.put("putAll", cache -> cache.putAll(Map.of("k", "v")));
        calls.put("putIfAbsent", cache -> cache.putIfAbsent("k", "v"));
        calls.put("remove", cache -> cache.remove("k"));
        calls.put("remove(key, old)", cache -> cache.remove("k", "v"));
        calls.put("getAndRemove", cache -> cache.getAndRemove("k"));
        calls.put("replace(key, old, new)", cache -> cache.replace("k", "v", "w"));
        calls.put("replace(key, value)", cache -> cache.replace("k", "v"));
        calls.put("getAndReplace", cache -> cache.getAndReplace("k", "v"));
        calls.put("removeAll(keys)", cache -> cache.removeAll(Set.of("k")));
        calls.put("removeAll()", Cache::removeAll);
        calls.put("clear", Cache::clear);
        calls.put("invoke", cache -> cache.invoke("k", NOTHING));
        calls.put("invokeAll", cache -> cache.invokeAll(Set.of("k"), NOTHING));
        calls.put("iterator", Cache::iterator);
        calls.put("registerCacheEntryListener", cache -> cache.registerCacheEntryListener(ListenerChecks.anyListener()));
        calls.put("deregisterCacheEntryListener", cache -> cache.deregisterCacheEntryListener(ListenerChecks.anyListener()));
        return calls;
    }

    private static void closed() {
        calls().forEach((method, call) -> on(method, "IllegalStateException where the cache is closed", cache -> {
            cache.close();
            holds(cache.isClosed());
            thrown(IllegalStateException.class, () -> call.on(cache));
        }));
        on("close", "twice is once", cache -> {
            cache.close();
            cache.close();
        });
        on("close", "the manager has it no more, and its name is free", cache -> {
            CacheManager manager = cache.getCacheManager();
            cache.close();
            same(null, manager.getCache("cache"));
            same(null, manager.createCache("cache", Caches.texts()).get("k"));
        });
    }

    private static Map<String, Call> callsWithNull() {
        Map<String, Call> calls = new LinkedHashMap<>();
        calls.put("get", cache -> cache.get(null));
        calls.put("getAll", cache -> cache.getAll(null));
        calls.put("getAll, a key", cache -> cache.getAll(Collections.singleton(null)));
        calls.put("containsKey", cache -> cache.containsKey(null));
        calls.put("loadAll", cache -> cache.loadAll(null, true, null));
        calls.put("loadAll, a key", cache -> cache.loadAll(Collections.singleton(null), true, null));
        calls.put("put, the key", cache -> cache.put(null, "v"));
        calls.put("put, the value", cache -> cache.put("k", null));
        calls.put("getAndPut, the key", cache -> cache.getAndPut(null, "v"));
        calls.put("getAndPut, the value", cache -> cache.getAndPut("k", null));
        calls.put("putAll", cache -> cache.putAll(null));
        calls.put("putAll, a key", cache -> cache.putAll(Collections.singletonMap(null, "v")));
        calls.put("putAll, a value", cache -> cache.putAll(Collections.singletonMap("k", null)));
        calls.put("putIfAbsent, the key", cache -> cache.putIfAbsent(null, "v"));
        calls.put("putIfAbsent, the value", cache -> cache.putIfAbsent("k", null));
        calls.put("remove", cache -> cache.remove(null));
        calls.put("remove(key, old), the key", cache -> cache.remove(null, "v"));
        calls.put("remove(key, old), the value", cache -> cache.remove("k", null));
        calls.put("getAndRemove", cache -> cache.getAndRemove(null));
        calls.put("replace(key, old, new), the key", cache -> cache.replace(null, "v", "w"));
        calls.put("replace(key, old, new), the old value", cache -> cache.replace("k", null, "w"));
        calls.put("replace(key, old, new), the new value", cache -> cache.replace("k", "v", null));
        calls.put("replace(key, value), the key", cache -> cache.replace(null, "v"));
        calls.put("replace(key, value), the value", cache -> cache.replace("k", null));
        calls.put("getAndReplace, the key", cache -> cache.getAndReplace(null, "v"));
        calls.put("getAndReplace, the value", cache -> cache.getAndReplace("k", null));
        calls.put("removeAll(keys)", cache -> cache.removeAll(null));
        calls.put("removeAll(keys), a key", cache -> cache.removeAll(Collections.singleton(null)));
        calls.put("invoke, the key", cache -> cache.invoke(null, NOTHING));
        calls.put("invoke, the processor", cache -> cache.invoke("k", (EntryProcessor<String, String, Object>) null));
        calls.put("invokeAll", cache -> cache.invokeAll(null, NOTHING));
        calls.put("invokeAll, the processor",
                cache -> cache.invokeAll(Set.of("k"), (EntryProcessor<String, String, Object>) null));
        calls.put("registerCacheEntryListener", cache -> cache.registerCacheEntryListener(null));
        return calls;
    }

    private static void nulls() {
        callsWithNull().forEach((method, call) -> on(method, "NullPointerException at null, and nothing changes", cache -> {
            cache.put("k", "before");
            thrown(NullPointerException.class, () -> call.on(cache));
            same("before", cache.get("k"));
        }));
    }

    @SuppressWarnings({"unchecked", "rawtypes"})
    private static void types() {
        MutableConfiguration<Integer, String> typed = new MutableConfiguration<Integer, String>().setTypes(Integer.class,
                String.class);
        Map<String, Consumer<Cache>> calls = new LinkedHashMap<>();
        calls.put("get", cache -> cache.get("k"));
        calls.put("put, the key", cache -> cache.put("k", "v"));
        calls.put("put, the value", cache -> cache.put(1, 2));
        calls.put("getAndPut", cache -> cache.getAndPut(1, 2));
        calls.put("putIfAbsent", cache -> cache.putIfAbsent(1, 2));
        calls.put("putAll", cache -> cache.putAll(new HashMap(Map.of(1, 2))));
        calls.put("replace(key, value)", cache -> cache.replace(1, 2));
        calls.put("replace(key, old, new)", cache -> cache.replace(1, "v", 2));
        calls.put("getAndReplace", cache -> cache.getAndReplace(1, 2));
        calls.put("remove", cache -> cache.remove("k"));
        calls.put("containsKey", cache -> cache.containsKey("k"));
        calls.put("getAll", cache -> cache.getAll(Set.of("k")));
        calls.forEach((method, call) -> Check.that("Cache Type-Safety", "ClassCastException of " + method,
                () -> Caches.with(typed, cache -> {
                    thrown(ClassCastException.class, () -> call.accept(cache));
                    holds(!cache.iterator().hasNext());
                })));
    }
}
