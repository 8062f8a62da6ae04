package checks;

import static checks.Check.holds;
import static checks.Check.same;
import static checks.Check.thrown;

import java.util.Map;
import jcache.jsr107.Refused;

/** What holds where native memory is refused; run with refusing.c, which refuses values of 50,000 to 50,999 bytes. */
public final class RefusedChecks {
    private static final String LONG = "v".repeat(50_500);

    private RefusedChecks() {}

    public static void main(String[] words) {
        Check.that("ours, memory", "a put that is refused changes nothing",
                () -> Caches.with(Caches.texts().setStatisticsEnabled(true), cache -> {
            cache.put("k", "v");
            Refused thrown = thrown(Refused.class, () -> cache.put("k", LONG));
            same(37, thrown.status());
            same("v", cache.get("k"));
            same("1 0 1 0 0", Caches.counters(cache));
            thrown(Refused.class, () -> cache.replace("k", "v", LONG));
            thrown(Refused.class, () -> cache.getAndPut("k", LONG));
            same("v", cache.get("k"));
        }));
        Check.that("ours, memory", "written and then refused: the cache has no entry that the store has not", () -> {
            Writer writer = new Writer();
            Caches.with(Caches.texts().setWriteThrough(true).setCacheWriterFactory(Caches.gives(writer)), cache -> {
                cache.put("k", "v");
                thrown(Refused.class, () -> cache.put("k", LONG));
                same(LONG, writer.store.get("k"));
                holds(!cache.containsKey("k"));
                cache.put("k", "w");
                same("w", cache.get("k"));
                cache.put("l", "v");
                thrown(Refused.class, () -> cache.putAll(Map.of("l", LONG)));
                same(LONG, writer.store.get("l"));
                holds(!cache.containsKey("l"));
            });
        });
        Check.that("ours, memory", "putAll: the parts before the refused one stand, and none behind it is stored",
                () -> Caches.with(Caches.texts(), cache -> {
            Map<String, String> pairs = new java.util.LinkedHashMap<>();
            for (int i = 0; i < 200; i++) {
                pairs.put("k" + i, i == 150 ? LONG : "v");
            }
            thrown(Refused.class, () -> cache.putAll(pairs));
            holds(cache.containsKey("k0") && cache.containsKey("k127"));
            holds(!cache.containsKey("k150") && !cache.containsKey("k192"));
        }));
        Check.end();
    }
}
