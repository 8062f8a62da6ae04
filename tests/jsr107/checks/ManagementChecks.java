package checks;

import static checks.Caches.counters;
import static checks.Caches.statistics;
import static checks.Check.holds;
import static checks.Check.same;

import java.util.Map;
import java.util.Set;
import javax.cache.Cache;
import javax.cache.management.CacheMXBean;
import javax.cache.management.CacheStatisticsMXBean;
import javax.management.JMX;

/** Management: what each method counts, and the beans. */
final class ManagementChecks {
    private ManagementChecks() {}

    static void run() {
        counted();
        countedRemovals();
        countedProcessors();
        values();
        beans();
        memory();
    }

    /** Hits, misses, puts, removals and evictions of a call on a cache that has an entry of the key k. */
    private static void counts(String what, String wanted, Caches.CacheBody<String, String> body) {
        Check.that("Management, CacheStatisticsMXBean", what,
                () -> Caches.with(Caches.texts().setStatisticsEnabled(true), cache -> {
            cache.put("k", "v");
            statistics(cache).clear();
            body.run(cache);
            same(wanted, counters(cache));
        }));
    }

    private static void counted() {
        counts("get counts a hit", "1 0 0 0 0", cache -> cache.get("k"));
        counts("get of a missing key counts a miss", "0 1 0 0 0", cache -> cache.get("l"));
        counts("getAll counts each", "1 1 0 0 0", cache -> cache.getAll(Set.of("k", "l")));
        counts("containsKey counts nothing", "0 0 0 0 0", cache -> cache.containsKey("k"));
        counts("put counts a put", "0 0 1 0 0", cache -> cache.put("k", "w"));
        counts("putAll counts each", "0 0 2 0 0", cache -> cache.putAll(Map.of("k", "w", "l", "x")));
        counts("getAndPut counts a hit and a put", "1 0 1 0 0", cache -> cache.getAndPut("k", "w"));
        counts("getAndPut of a new key counts a miss and a put", "0 1 1 0 0", cache -> cache.getAndPut("l", "w"));
        counts("putIfAbsent counts a hit", "1 0 0 0 0", cache -> cache.putIfAbsent("k", "w"));
        counts("putIfAbsent of a new key counts a miss and a put", "0 1 1 0 0", cache -> cache.putIfAbsent("l", "w"));
        counts("replace counts a hit and a put", "1 0 1 0 0", cache -> cache.replace("k", "w"));
        counts("replace of a missing key counts a miss", "0 1 0 0 0", cache -> cache.replace("l", "w"));
        counts("replace of the old value counts a hit and a put", "1 0 1 0 0", cache -> cache.replace("k", "v", "w"));
        counts("replace of another value counts a hit", "1 0 0 0 0", cache -> cache.replace("k", "x", "w"));
        counts("replace of the old value of a missing key counts a miss", "0 1 0 0 0",
                cache -> cache.replace("l", "x", "w"));
        counts("getAndReplace counts a hit and a put", "1 0 1 0 0", cache -> cache.getAndReplace("k", "w"));
        counts("getAndReplace of a missing key counts a miss", "0 1 0 0 0", cache -> cache.getAndReplace("l", "w"));
    }

    private static void countedRemovals() {
        counts("remove counts a removal", "0 0 0 1 0", cache -> cache.remove("k"));
        counts("remove of a missing key counts nothing", "0 0 0 0 0", cache -> cache.remove("l"));
        counts("remove of the old value counts a hit and a removal", "1 0 0 1 0", cache -> cache.remove("k", "v"));
        counts("remove of another value counts a hit", "1 0 0 0 0", cache -> cache.remove("k", "x"));
        counts("remove of the old value of a missing key counts a miss", "0 1 0 0 0", cache -> cache.remove("l", "x"));
        counts("getAndRemove counts a hit and a removal", "1 0 0 1 0", cache -> cache.getAndRemove("k"));
        counts("getAndRemove of a missing key counts a miss", "0 1 0 0 0", cache -> cache.getAndRemove("l"));
        counts("removeAll(keys) counts a removal for each that is there", "0 0 0 1 0",
                cache -> cache.removeAll(Set.of("k", "l")));
        counts("removeAll() counts a removal for each", "0 0 0 1 0", Cache::removeAll);
        counts("clear counts nothing", "0 0 0 0 0", Cache::clear);
        counts("an iterator counts a hit for each that it gives", "1 0 0 0 0", cache -> cache.forEach(entry -> {}));
        counts("hasNext counts nothing", "0 0 0 0 0", cache -> cache.iterator().hasNext());
        counts("Iterator.remove counts a removal", "1 0 0 1 0", cache -> {
            var entries = cache.iterator();
            entries.next();
            entries.remove();
        });
    }

    private static void countedProcessors() {
        counts("invoke that does nothing counts a hit", "1 0 0 0 0", cache -> cache.invoke("k", (entry, words) -> null));
        counts("invoke of a missing key counts a miss", "0 1 0 0 0", cache -> cache.invoke("l", (entry, words) -> null));
        counts("invoke that reads counts a hit", "1 0 0 0 0",
                cache -> cache.invoke("k", (entry, words) -> entry.getValue()));
        counts("invoke that sets counts a hit and a put", "1 0 1 0 0", cache -> cache.invoke("k", (entry, words) -> {
            entry.setValue("w");
            return null;
        }));
        counts("invoke that sets a new key counts a miss and a put", "0 1 1 0 0",
                cache -> cache.invoke("l", (entry, words) -> {
            entry.setValue("w");
            return null;
        }));
        counts("invoke that removes counts a hit and a removal", "1 0 0 1 0", cache -> cache.invoke("k", (entry, words) -> {
            entry.remove();
            return null;
        }));
        Check.that("Management, CacheStatisticsMXBean", "an eviction is counted",
                () -> Caches.with(Caches.texts().setStatisticsEnabled(true), cache -> {
            cache.put("a", "1");
            cache.put("b", "2");
            cache.put("c", "3");
            same("0 0 3 0 2", counters(cache));
        }, "jcache.capacity", "1"));
    }

    private static void values() {
        String section = "Management, CacheStatisticsMXBean";
        Check.that(section, "gets and percentages", () -> Caches.with(Caches.texts().setStatisticsEnabled(true), cache -> {
            CacheStatisticsMXBean bean = statistics(cache);
            holds(bean.getCacheHitPercentage() == 0 && bean.getCacheMissPercentage() == 0);
            cache.put("k", "v");
            cache.get("k");
            cache.get("k");
            cache.get("k");
            cache.get("l");
            same(4L, bean.getCacheGets());
            holds(bean.getCacheHitPercentage() == 75 && bean.getCacheMissPercentage() == 25);
        }));
        Check.that(section, "average times are those of calls that were made",
                () -> Caches.with(Caches.texts().setStatisticsEnabled(true), cache -> {
            CacheStatisticsMXBean bean = statistics(cache);
            holds(bean.getAverageGetTime() == 0 && bean.getAveragePutTime() == 0 && bean.getAverageRemoveTime() == 0);
            cache.put("k", "v");
            cache.get("k");
            cache.remove("k");
            holds(bean.getAverageGetTime() > 0 && bean.getAveragePutTime() > 0 && bean.getAverageRemoveTime() > 0);
        }));
        Check.that(section, "clear sets all to zero", () -> Caches.with(Caches.texts().setStatisticsEnabled(true), cache -> {
            cache.put("k", "v");
            cache.get("k");
            statistics(cache).clear();
            same("0 0 0 0 0", counters(cache));
            holds(statistics(cache).getAverageGetTime() == 0);
        }));
        Check.that("CacheManager.enableStatistics", "nothing is counted while they are off",
                () -> Caches.with(Caches.texts().setStatisticsEnabled(true), cache -> {
            cache.put("k", "v");
            cache.getCacheManager().enableStatistics("cache", false);
            cache.get("k");
            cache.getCacheManager().enableStatistics("cache", true);
            cache.get("l");
            same("0 1 1 0 0", counters(cache));
        }));
    }

    private static void beans() {
        Check.that("CacheManager.enableStatistics", "registers and unregisters the bean",
                () -> Caches.with(Caches.texts(), cache -> {
            holds(!Caches.server().isRegistered(Caches.bean(cache, "CacheStatistics")));
            cache.getCacheManager().enableStatistics("cache", true);
            holds(Caches.server().isRegistered(Caches.bean(cache, "CacheStatistics")));
            holds(Caches.configuration(cache).isStatisticsEnabled());
            cache.getCacheManager().enableStatistics("cache", false);
            holds(!Caches.server().isRegistered(Caches.bean(cache, "CacheStatistics")));
        }));
        Check.that("CacheManager.enableManagement", "registers and unregisters the bean",
                () -> Caches.with(Caches.texts(), cache -> {
            holds(!Caches.server().isRegistered(Caches.bean(cache, "CacheConfiguration")));
            cache.getCacheManager().enableManagement("cache", true);
            CacheMXBean bean = JMX.newMXBeanProxy(Caches.server(), Caches.bean(cache, "CacheConfiguration"),
                    CacheMXBean.class);
            same("java.lang.String", bean.getKeyType());
            same("java.lang.String", bean.getValueType());
            holds(bean.isStoreByValue() && bean.isManagementEnabled() && !bean.isStatisticsEnabled());
            holds(!bean.isReadThrough() && !bean.isWriteThrough());
            cache.getCacheManager().enableManagement("cache", false);
            holds(!Caches.server().isRegistered(Caches.bean(cache, "CacheConfiguration")));
        }));
        Check.that("Cache.close", "unregisters the beans",
                () -> Caches.with(Caches.texts().setStatisticsEnabled(true).setManagementEnabled(true), cache -> {
            cache.close();
            holds(!Caches.server().isRegistered(Caches.bean(cache, "CacheStatistics")));
            holds(!Caches.server().isRegistered(Caches.bean(cache, "CacheConfiguration")));
        }));
    }

    private static void memory() {
        Check.that("ours, CacheMemoryMXBean", "tells rows, capacity and bytes outside of the heap",
                () -> Caches.with(Caches.texts().setStatisticsEnabled(true), cache -> {
            long empty = memory(cache, "Bytes");
            for (int i = 0; i < 100; i++) {
                cache.put("k" + i, "v".repeat(1000));
            }
            same(100L, memory(cache, "Rows"));
            same(200L, memory(cache, "Capacity"));
            long full = memory(cache, "Bytes");
            holds(full > empty + 100_000 && full < empty + 400_000);
            cache.clear();
            same(0L, memory(cache, "Rows"));
            holds(memory(cache, "Bytes") < full - 100_000);
        }, "jcache.capacity", "200"));
    }

    private static long memory(Cache<?, ?> cache, String attribute) throws Exception {
        return (Long) Caches.server().getAttribute(Caches.bean(cache, "CacheMemory"), attribute);
    }
}
