package checks;

import static checks.Check.holds;
import static checks.Check.same;
import static checks.Check.thrown;

import java.util.ArrayList;
import java.util.LinkedHashSet;
import java.util.List;
import java.util.Map;
import java.util.Set;
import javax.cache.Cache;
import javax.cache.processor.EntryProcessorException;
import javax.cache.processor.EntryProcessorResult;
import javax.cache.processor.MutableEntry;

/** Entry Processors: what their entry is, what they leave, and what comes of one that fails. */
final class ProcessorChecks {
    private static final String SECTION = "Entry Processors";

    private ProcessorChecks() {}

    private static void on(String what, Caches.CacheBody<String, String> body) {
        Check.that(SECTION, what, () -> Caches.with(Caches.texts(), cache -> {
            cache.put("k", "v");
            body.run(cache);
        }));
    }

    static void run() {
        entries();
        sequences();
        failures();
        many();
        iterates();
    }

    private static void entries() {
        on("invoke answers what the processor answers", cache -> same(5, cache.invoke("k", (entry, words) -> 5)));
        on("the processor has the arguments in order",
                cache -> same("a1", cache.invoke("k", (entry, words) -> words[0] + "" + words[1], "a", 1)));
        on("the entry has its key and value",
                cache -> same("kv", cache.invoke("k", (entry, words) -> entry.getKey() + entry.getValue())));
        on("an entry that is there exists", cache -> same(true, cache.invoke("k", (entry, words) -> entry.exists())));
        on("an entry that is not there has null",
                cache -> same(true, cache.invoke("l", (entry, words) -> !entry.exists() && entry.getValue() == null)));
        on("setValue is seen by the processor, then by all", cache -> {
            same("w", cache.invoke("k", (entry, words) -> {
                entry.setValue("w");
                return entry.getValue();
            }));
            same("w", cache.get("k"));
        });
        on("setValue of null is a NullPointerException, wrapped", cache -> {
            EntryProcessorException thrown = thrown(EntryProcessorException.class,
                    () -> cache.invoke("k", (entry, words) -> {
                entry.setValue(null);
                return null;
            }));
            holds(thrown.getCause() instanceof NullPointerException);
            same("v", cache.get("k"));
        });
        on("unwrap gives itself, and no other type", cache -> same(true, cache.invoke("k", (entry, words) -> {
            boolean isSame = entry.unwrap(MutableEntry.class) == entry;
            try {
                entry.unwrap(String.class);
                return false;
            } catch (IllegalArgumentException e) {
                return isSame;
            }
        })));
    }

    private static void sequences() {
        on("remove, then exists is false", cache -> {
            same(false, cache.invoke("k", (entry, words) -> {
                entry.remove();
                return entry.exists();
            }));
            holds(!cache.containsKey("k"));
        });
        on("remove, then setValue stores", cache -> {
            cache.invoke("k", (entry, words) -> {
                entry.remove();
                entry.setValue("w");
                return null;
            });
            same("w", cache.get("k"));
        });
        on("setValue, then remove of a new key leaves nothing", cache -> {
            cache.invoke("l", (entry, words) -> {
                entry.setValue("w");
                entry.remove();
                return null;
            });
            holds(!cache.containsKey("l"));
        });
        on("the last of two values is stored", cache -> {
            cache.invoke("k", (entry, words) -> {
                entry.setValue("w");
                entry.setValue("x");
                return null;
            });
            same("x", cache.get("k"));
        });
        on("a processor may call the cache with another key", cache -> {
            cache.invoke("k", (entry, words) -> {
                cache.put("l", entry.getValue());
                return null;
            });
            same("v", cache.get("l"));
        });
    }

    private static void failures() {
        on("what a processor throws is wrapped, and nothing changes", cache -> {
            EntryProcessorException thrown = thrown(EntryProcessorException.class,
                    () -> cache.invoke("k", (entry, words) -> {
                entry.setValue("w");
                throw new IllegalStateException("broken");
            }));
            same("broken", thrown.getCause().getMessage());
            same("v", cache.get("k"));
        });
        on("an EntryProcessorException is thrown as it is", cache -> {
            EntryProcessorException own = new EntryProcessorException("own");
            EntryProcessorException thrown = thrown(EntryProcessorException.class,
                    () -> cache.invoke("k", (entry, words) -> {
                throw own;
            }));
            holds(thrown == own);
        });
    }

    private static void many() {
        on("invokeAll has a result for each key that answers", cache -> {
            Map<String, EntryProcessorResult<String>> results = cache.invokeAll(Set.of("k", "l"), (entry, words) ->
                    entry.getValue());
            same(Set.of("k"), results.keySet());
            same("v", results.get("k").get());
        });
        on("invokeAll: a key that fails keeps no other from its result", cache -> {
            Map<String, EntryProcessorResult<String>> results = cache.invokeAll(new LinkedHashSet<>(List.of("l", "k")),
                    (entry, words) -> {
                if (!entry.exists()) {
                    throw new IllegalStateException("broken");
                }
                return entry.getValue();
            });
            same("v", results.get("k").get());
            EntryProcessorException thrown = thrown(EntryProcessorException.class, () -> results.get("l").get());
            same("broken", thrown.getCause().getMessage());
        });
        on("invokeAll of no keys has no results", cache -> same(Map.of(), cache.invokeAll(Set.of(), (entry, words) -> 1)));
        on("invokeAll changes each", cache -> {
            cache.put("l", "w");
            cache.invokeAll(Set.of("k", "l"), (entry, words) -> {
                entry.setValue(entry.getValue() + words[0]);
                return null;
            }, "!");
            same(Map.of("k", "v!", "l", "w!"), cache.getAll(Set.of("k", "l")));
        });
    }

    private static void iterates() {
        Check.that("Cache.iterator", "gives each entry once, also many", () -> Caches.with(Caches.texts(), cache -> {
            Set<String> wanted = new LinkedHashSet<>();
            for (int i = 0; i < 5000; i++) {
                cache.put("k" + i, "v".repeat(100));
                wanted.add("k" + i);
            }
            List<String> seen = new ArrayList<>();
            cache.forEach(entry -> seen.add(entry.getKey()));
            same(5000, seen.size());
            same(wanted, Set.copyOf(seen));
        }));
        on("Cache.iterator: remove without next is refused",
                cache -> thrown(IllegalStateException.class, () -> cache.iterator().remove()));
        on("Cache.iterator: next behind the last is refused", cache -> {
            var entries = cache.iterator();
            entries.next();
            thrown(java.util.NoSuchElementException.class, entries::next);
        });
        on("Cache.iterator: remove removes, once", cache -> {
            var entries = cache.iterator();
            entries.next();
            entries.remove();
            holds(!cache.containsKey("k"));
            thrown(IllegalStateException.class, entries::remove);
        });
        on("Cache.iterator: goes on beside changes", cache -> {
            var entries = cache.iterator();
            cache.put("k", "w");
            Cache.Entry<String, String> entry = entries.next();
            same("w", entry.getValue());
            holds(entry.unwrap(Cache.Entry.class) == entry);
        });
    }
}
