package checks;

import static checks.Caches.gives;
import static checks.Check.holds;
import static checks.Check.same;
import static checks.Check.thrown;

import java.io.Closeable;
import java.util.ArrayList;
import java.util.Iterator;
import java.util.LinkedHashMap;
import java.util.LinkedHashSet;
import java.util.List;
import java.util.Map;
import java.util.Set;
import java.util.concurrent.CountDownLatch;
import java.util.concurrent.ExecutionException;
import java.util.concurrent.TimeUnit;
import javax.cache.Cache;
import javax.cache.CacheException;
import javax.cache.configuration.MutableConfiguration;
import javax.cache.integration.CacheLoader;
import javax.cache.integration.CacheLoaderException;
import javax.cache.integration.CacheWriter;
import javax.cache.integration.CacheWriterException;
import javax.cache.integration.CompletionListener;
import javax.cache.integration.CompletionListenerFuture;
import javax.cache.processor.EntryProcessorException;

/** Integration: which methods load and write, and what comes of a loader or a writer that fails. */
final class ThroughChecks {
    private static final String LOADING = "Integration, CacheLoader";
    private static final String WRITING = "Integration, CacheWriter";
    private static final Map<String, String> BEFORE = Map.of("k", "v");
    private static final Map<String, String> CHANGED = Map.of("k", "w");
    private static final Map<String, String> MORE = Map.of("k", "v", "l", "w");

    private ThroughChecks() {}

    private static MutableConfiguration<String, String> loading(Loader loader) {
        return Caches.texts().setReadThrough(true).setCacheLoaderFactory(gives(loader));
    }

    private static MutableConfiguration<String, String> writing(Writer writer) {
        return Caches.texts().setWriteThrough(true).setCacheWriterFactory(gives(writer));
    }

    static void run() {
        loads();
        loadsNot();
        loaders();
        loaderFails();
        loadsAll();
        loadsInTheBackground();
        loaderEndsByAnError();
        writes();
        deletes();
        processes();
        writerFails();
        partly();
    }

    /** What a call on a cache loads that has an entry of the key k. */
    private static void loads(String what, List<String> wanted, Caches.CacheBody<String, String> body) {
        Check.that(LOADING, what, () -> {
            Loader loader = new Loader();
            Caches.with(loading(loader), cache -> {
                cache.put("k", "v");
                body.run(cache);
                same(wanted, loader.loaded);
            });
        });
    }

    private static void loads() {
        loads("get loads a missing key, and stores it", List.of("l"), cache -> {
            same("L", cache.get("l"));
            same("L", cache.get("l"));
        });
        loads("get of a key that is there does not load", List.of(), cache -> cache.get("k"));
        loads("get of what the loader has not is null", List.of("-"), cache -> same(null, cache.get("-")));
        loads("getAll loads missing keys", List.of("l"),
                cache -> same(Map.of("k", "v", "l", "L"), cache.getAll(new LinkedHashSet<>(List.of("k", "l")))));
        loads("containsKey does not load", List.of(), cache -> holds(!cache.containsKey("l")));
    }

    private static void loadsNot() {
        loads("put does not load", List.of(), cache -> cache.put("l", "w"));
        loads("getAndPut does not load", List.of(), cache -> same(null, cache.getAndPut("l", "w")));
        loads("putIfAbsent does not load", List.of(), cache -> holds(cache.putIfAbsent("l", "w")));
        loads("replace does not load", List.of(), cache -> holds(!cache.replace("l", "w")));
        loads("replace of the old value does not load", List.of(), cache -> holds(!cache.replace("l", "L", "w")));
        loads("getAndReplace does not load", List.of(), cache -> same(null, cache.getAndReplace("l", "w")));
        loads("remove does not load", List.of(), cache -> holds(!cache.remove("l")));
        loads("remove of the old value does not load", List.of(), cache -> holds(!cache.remove("l", "L")));
        loads("getAndRemove does not load", List.of(), cache -> same(null, cache.getAndRemove("l")));
        loads("iterator does not load", List.of(), cache -> cache.iterator().next());
        loads("invoke that reads loads, and stores", List.of("l"), cache -> {
            same("L", cache.invoke("l", (entry, words) -> entry.getValue()));
            holds(cache.containsKey("l"));
        });
        loads("invoke that reads nothing does not load", List.of(),
                cache -> same(false, cache.invoke("l", (entry, words) -> entry.exists())));
    }

    private static void loaders() {
        Check.that(LOADING, "without read-through nothing is loaded by get", () -> {
            Loader loader = new Loader();
            Caches.with(loading(loader).setReadThrough(false), cache -> {
                same(null, cache.get("l"));
                same(List.of(), loader.loaded);
            });
        });
        Check.that("Cache.close", "closes a loader and a writer that are Closeable", () -> {
            Loader loader = new Loader();
            Writer writer = new Writer();
            Caches.with(loading(loader).setWriteThrough(true).setCacheWriterFactory(gives(writer)), Cache::close);
            holds(loader.isClosed && writer.isClosed);
        });
        Check.that(LOADING, "a loader may call the cache", () -> {
            List<Cache<String, String>> caches = new ArrayList<>();
            CacheLoader<String, String> loader = new CacheLoader<>() {
                @Override
                public String load(String key) {
                    return key.equals("a") ? "a and " + caches.get(0).get("b") : key;
                }

                @Override
                public Map<String, String> loadAll(Iterable<? extends String> keys) {
                    throw new IllegalStateException();
                }
            };
            Caches.with(Caches.texts().setReadThrough(true).setCacheLoaderFactory(gives(loader)), cache -> {
                caches.add(cache);
                same("a and b", cache.get("a"));
            });
        });
    }

    private static void loaderFails() {
        loads("get wraps what the loader throws", List.of("!"), cache -> {
            CacheLoaderException thrown = thrown(CacheLoaderException.class, () -> cache.get("!"));
            same("no !", thrown.getCause().getMessage());
            holds(!cache.containsKey("!"));
        });
        loads("getAll wraps what the loader throws", List.of("!"),
                cache -> thrown(CacheLoaderException.class, () -> cache.getAll(Set.of("!"))));
        loads("invoke gives what the loader throws on", List.of("!"),
                cache -> thrown(CacheLoaderException.class, () -> cache.invoke("!", (entry, words) -> entry.getValue())));
        loads("invokeAll: its key alone has no result", List.of("!"), cache -> {
            var results = cache.invokeAll(new LinkedHashSet<>(List.of("!", "k")), (entry, words) -> entry.getValue());
            thrown(EntryProcessorException.class, () -> results.get("!").get());
            same("v", results.get("k").get());
        });
    }

    private static void all(Cache<String, String> cache, boolean replace, String... keys) throws Exception {
        CompletionListenerFuture future = new CompletionListenerFuture();
        cache.loadAll(new LinkedHashSet<>(List.of(keys)), replace, future);
        future.get(20, TimeUnit.SECONDS);
    }

    private static void loadsAll() {
        loads("loadAll loads missing keys", List.of("l", "m"), cache -> {
            all(cache, false, "k", "l", "m");
            same(Map.of("k", "v", "l", "L", "m", "M"), cache.getAll(Set.of("k", "l", "m")));
        });
        loads("loadAll with replace loads all keys", List.of("k", "l"), cache -> {
            all(cache, true, "k", "l");
            same("K", cache.get("k"));
        });
        loads("loadAll of no keys completes", List.of(), cache -> all(cache, true));
        loads("loadAll tells its listener what the loader throws", List.of("!"), cache -> {
            ExecutionException thrown = thrown(ExecutionException.class, () -> all(cache, true, "!"));
            holds(thrown.getCause() instanceof CacheLoaderException);
        });
    }

    private static void loadsInTheBackground() {
        Check.that("Cache.loadAll", "completes without a loader",
                () -> Caches.with(Caches.texts(), cache -> all(cache, true, "k")));
        Check.that("Cache.loadAll", "returns before the loader has ended", () -> {
            CountDownLatch go = new CountDownLatch(1);
            CacheLoader<String, String> slow = new CacheLoader<>() {
                @Override
                public String load(String key) {
                    throw new IllegalStateException();
                }

                @Override
                public Map<String, String> loadAll(Iterable<? extends String> keys) {
                    try {
                        go.await();
                    } catch (InterruptedException e) {
                        throw new IllegalStateException(e);
                    }
                    return Map.of("l", "L");
                }
            };
            Caches.with(Caches.texts().setCacheLoaderFactory(gives(slow)), cache -> {
                CompletionListenerFuture future = new CompletionListenerFuture();
                cache.loadAll(Set.of("l"), false, future);
                holds(!future.isDone() && !cache.containsKey("l"));
                cache.put("k", "another key goes on");
                go.countDown();
                future.get(20, TimeUnit.SECONDS);
                same("L", cache.get("l"));
            });
        });
        Check.that("Cache.loadAll", "without a listener nobody is told", () -> {
            Loader loader = new Loader();
            Caches.with(loading(loader), cache -> {
                cache.loadAll(Set.of("!"), true, (CompletionListener) null);
                all(cache, false, "l");
                holds(cache.containsKey("l"));
            });
        });
    }

    private static void loaderEndsByAnError() {
        Check.that("Cache.loadAll", "a loader's error is told to who waits", () -> {
            CacheLoader<String, String> loader = new CacheLoader<>() {
                @Override
                public String load(String key) {
                    throw new AssertionError();
                }

                @Override
                public Map<String, String> loadAll(Iterable<? extends String> keys) {
                    throw new AssertionError();
                }
            };
            Caches.with(Caches.texts().setCacheLoaderFactory(gives(loader)), cache -> {
                ExecutionException told = thrown(ExecutionException.class, () -> all(cache, true, "k"));
                holds(told.getCause().getCause() instanceof AssertionError);
            });
        });
    }

    /** What is written and deleted by a call on a cache that has an entry of the key k. */
    private static void writes(String what, Map<String, String> wanted, List<String> deleted, Caches.CacheBody<String,
            String> body) {
        Check.that(WRITING, what, () -> {
            Writer writer = new Writer();
            Caches.with(writing(writer), cache -> {
                cache.put("k", "v");
                body.run(cache);
                same(wanted, writer.store);
                same(deleted, writer.deleted);
            });
        });
    }

    private static void writes() {
        writes("put writes", CHANGED, List.of(), cache -> cache.put("k", "w"));
        writes("getAndPut writes", CHANGED, List.of(), cache -> cache.getAndPut("k", "w"));
        writes("putAll writes", MORE, List.of(), cache -> cache.putAll(Map.of("l", "w")));
        writes("putIfAbsent of a new key writes", MORE, List.of(), cache -> cache.putIfAbsent("l", "w"));
        writes("putIfAbsent of a key that is there writes nothing", BEFORE, List.of(), cache -> cache.putIfAbsent("k", "w"));
        writes("replace writes", CHANGED, List.of(), cache -> cache.replace("k", "w"));
        writes("replace of a missing key writes nothing", BEFORE, List.of(), cache -> cache.replace("l", "w"));
        writes("replace of the old value writes", CHANGED, List.of(), cache -> cache.replace("k", "v", "w"));
        writes("replace of another value writes nothing", BEFORE, List.of(), cache -> cache.replace("k", "x", "w"));
        writes("getAndReplace writes", CHANGED, List.of(), cache -> cache.getAndReplace("k", "w"));
    }

    private static void deletes() {
        writes("remove deletes", Map.of(), List.of("k"), cache -> cache.remove("k"));
        writes("remove of a missing key deletes", BEFORE, List.of("l"), cache -> cache.remove("l"));
        writes("remove of the old value deletes", Map.of(), List.of("k"), cache -> cache.remove("k", "v"));
        writes("remove of another value deletes nothing", BEFORE, List.of(), cache -> cache.remove("k", "x"));
        writes("getAndRemove deletes", Map.of(), List.of("k"), cache -> cache.getAndRemove("k"));
        writes("removeAll(keys) deletes", Map.of(), List.of("k"), cache -> cache.removeAll(Set.of("k")));
        writes("removeAll() deletes", Map.of(), List.of("k"), Cache::removeAll);
        writes("clear deletes nothing", BEFORE, List.of(), Cache::clear);
        writes("Iterator.remove deletes", Map.of(), List.of("k"), cache -> {
            var entries = cache.iterator();
            entries.next();
            entries.remove();
        });
    }

    private static void processes() {
        writes("invoke that sets writes", CHANGED, List.of(), cache -> cache.invoke("k", (entry, words) -> {
            entry.setValue("x");
            entry.setValue("w");
            return null;
        }));
        writes("invoke that removes deletes", Map.of(), List.of("k"), cache -> cache.invoke("k", (entry, words) -> {
            entry.remove();
            return null;
        }));
        writes("invoke that sets and removes a new key does neither", BEFORE, List.of(),
                cache -> cache.invoke("l", (entry, words) -> {
            entry.setValue("w");
            entry.remove();
            return null;
        }));
        Check.that(WRITING, "loadAll writes nothing", () -> {
            Writer writer = new Writer();
            Caches.with(writing(writer).setReadThrough(true).setCacheLoaderFactory(gives(new Loader())), cache -> {
                all(cache, true, "l");
                same("M", cache.get("m"));
                same(Map.of(), writer.store);
            });
        });
        Check.that(WRITING, "without write-through nothing is written", () -> {
            Writer writer = new Writer();
            Caches.with(writing(writer).setWriteThrough(false), cache -> {
                cache.put("k", "v");
                same(Map.of(), writer.store);
            });
        });
    }

    private static void fails(String what, Caches.CacheBody<String, String> call) {
        Check.that(WRITING, what + " wraps what the writer throws, and the entry stays", () -> {
            Caches.with(writing(new Writer()).setStatisticsEnabled(true), cache -> {
                CacheWriterException thrown = thrown(CacheWriterException.class, () -> call.run(cache));
                same("no !k", thrown.getCause().getMessage());
                holds(!cache.containsKey("!k"));
                same("0 0 0 0 0", Caches.counters(cache));
            });
        });
    }

    private static void writerFails() {
        fails("put", cache -> cache.put("!k", "w"));
        fails("getAndPut", cache -> cache.getAndPut("!k", "w"));
        fails("putIfAbsent", cache -> cache.putIfAbsent("!k", "w"));
        fails("putAll", cache -> cache.putAll(Map.of("!k", "w")));
        fails("remove", cache -> cache.remove("!k"));
        fails("removeAll(keys)", cache -> cache.removeAll(Set.of("!k")));
        fails("invoke that sets", cache -> cache.invoke("!k", (entry, words) -> {
            entry.setValue("w");
            return null;
        }));
    }

    private static void partly() {
        Check.that("CacheWriter.writeAll", "what is written before a failure is stored, the rest is not", () -> {
            Writer writer = new Writer();
            Caches.with(writing(writer), cache -> {
                Map<String, String> pairs = new LinkedHashMap<>();
                pairs.put("a", "1");
                pairs.put("!", "2");
                pairs.put("b", "3");
                thrown(CacheWriterException.class, () -> cache.putAll(pairs));
                same(Map.of("a", "1"), writer.store);
                same(Map.of("a", "1"), cache.getAll(pairs.keySet()));
            });
        });
        Check.that("CacheWriter.deleteAll", "what is deleted before a failure is removed, the rest is not", () -> {
            Caches.with(writing(new Writer()), cache -> {
                cache.putAll(Map.of("a", "1", "b", "2", "c", "3"));
                thrown(CacheWriterException.class, () -> cache.removeAll(new LinkedHashSet<>(List.of("a", "!", "b"))));
                same(Map.of("b", "2", "c", "3"), cache.getAll(Set.of("a", "b", "c")));
            });
        });
        Check.that(WRITING, "a value that does not fit is refused before it is written", () -> {
            Writer writer = new Writer();
            Caches.with(writing(writer), cache -> {
                thrown(CacheException.class, () -> cache.put("k", "v".repeat(65_536)));
                thrown(CacheException.class, () -> cache.putAll(Map.of("l", "v".repeat(65_536))));
                same(Map.of(), writer.store);
            });
        });
    }
}
