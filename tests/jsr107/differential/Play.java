package checks;

import java.io.PrintStream;
import java.nio.charset.StandardCharsets;
import java.nio.file.Files;
import java.nio.file.Path;
import java.util.ArrayList;
import java.util.Collection;
import java.util.Collections;
import java.util.HexFormat;
import java.util.Iterator;
import java.util.LinkedHashMap;
import java.util.LinkedHashSet;
import java.util.List;
import java.util.Map;
import java.util.Set;
import java.util.concurrent.ExecutionException;
import java.util.concurrent.TimeUnit;
import javax.cache.Cache;
import javax.cache.CacheManager;
import javax.cache.configuration.Factory;
import javax.cache.configuration.MutableConfiguration;
import javax.cache.event.CacheEntryCreatedListener;
import javax.cache.event.CacheEntryEvent;
import javax.cache.event.CacheEntryExpiredListener;
import javax.cache.event.CacheEntryRemovedListener;
import javax.cache.event.CacheEntryUpdatedListener;
import javax.cache.expiry.AccessedExpiryPolicy;
import javax.cache.expiry.CreatedExpiryPolicy;
import javax.cache.expiry.Duration;
import javax.cache.expiry.EternalExpiryPolicy;
import javax.cache.expiry.ExpiryPolicy;
import javax.cache.expiry.ModifiedExpiryPolicy;
import javax.cache.expiry.TouchedExpiryPolicy;
import javax.cache.integration.CacheLoader;
import javax.cache.integration.CacheLoaderException;
import javax.cache.integration.CacheWriter;
import javax.cache.integration.CacheWriterException;
import javax.cache.integration.CompletionListenerFuture;
import javax.cache.processor.EntryProcessor;
import javax.cache.processor.EntryProcessorException;
import javax.cache.processor.EntryProcessorResult;

/**
 * Plays the calls of `calls.txt` by javax.cache, with the callbacks that the program has, and prints its report. With the
 * word `own` behind the file, caches that evict nothing have policies of the user's own, which say what the engine's say.
 */
final class Play {
    private static final int ROOMY = 40;

    private final CacheManager manager = Caches.manager();
    private final boolean isOwn;
    private final Map<String, Played> caches = new LinkedHashMap<>();

    /** A cache, its processors, and what is to be printed of it. */
    private static final class Played {
        private final List<String> report = new ArrayList<>();
        private final List<String> events = new ArrayList<>();
        private Cache<String, String> cache;
        private String kinds;
        private int written;
    }

    /** The words of a line, one after the other. */
    private static final class Words {
        private final String[] words;
        private int next;

        Words(String line) {
            words = line.split(" ");
        }

        String word() {
            return words[next++];
        }

        String text() {
            return new String(HexFormat.of().parseHex(word().substring(1)), StandardCharsets.UTF_8);
        }

        List<String> texts() {
            List<String> texts = new ArrayList<>();
            for (int left = Integer.parseInt(word()); left > 0; left--) {
                texts.add(text());
            }
            return texts;
        }
    }

    public static void main(String[] words) throws Exception {
        Play play = new Play(words.length > 1 && words[1].equals("own"));
        for (String line : Files.readAllLines(Path.of(words[0]))) {
            Words of = new Words(line);
            String first = of.word();
            if (first.equals("cache")) {
                play.create(of);
            } else {
                play.call(first, of);
            }
        }
        PrintStream out = new PrintStream(System.out, false, StandardCharsets.UTF_8);
        play.caches.forEach((name, played) -> {
            out.println("cache " + name);
            played.report.forEach(out::println);
        });
        out.flush();
        play.manager.close();
    }

    private Play(boolean isOwn) {
        this.isOwn = isOwn;
    }

    /** Says what another policy says. */
    private record Same(ExpiryPolicy policy) implements ExpiryPolicy {
        @Override
        public Duration getExpiryForCreation() {
            return policy.getExpiryForCreation();
        }

        @Override
        public Duration getExpiryForAccess() {
            return policy.getExpiryForAccess();
        }

        @Override
        public Duration getExpiryForUpdate() {
            return policy.getExpiryForUpdate();
        }
    }

    private static Factory<ExpiryPolicy> policy(String kind, Duration duration) {
        return switch (kind) {
            case "created" -> CreatedExpiryPolicy.factoryOf(duration);
            case "accessed" -> AccessedExpiryPolicy.factoryOf(duration);
            case "modified" -> ModifiedExpiryPolicy.factoryOf(duration);
            case "touched" -> TouchedExpiryPolicy.factoryOf(duration);
            default -> EternalExpiryPolicy.factoryOf();
        };
    }

    private void create(Words of) {
        Played played = new Played();
        String name = of.word();
        int capacity = Integer.parseInt(of.word());
        manager.getProperties().setProperty("jcache.capacity." + name, "" + capacity);
        Factory<ExpiryPolicy> policy = policy(of.word(), new Duration(TimeUnit.MILLISECONDS,
                Long.parseLong(of.word())));
        Factory<ExpiryPolicy> same = () -> new Same(policy.create());
        MutableConfiguration<String, String> configuration = Caches.texts().setStatisticsEnabled(true)
                .setExpiryPolicyFactory(isOwn && capacity >= ROOMY ? same : policy);
        if (of.word().equals("1")) {
            configuration.setReadThrough(true).setCacheLoaderFactory(Caches.gives(new Echo()));
        }
        if (of.word().equals("1")) {
            configuration.setWriteThrough(true).setCacheWriterFactory(Caches.gives(new Checking(played)));
        }
        if (of.word().equals("1")) {
            configuration.addCacheEntryListenerConfiguration(ListenerChecks.of(new Telling(played), null, true, true));
        }
        played.kinds = of.word();
        played.cache = manager.createCache(name, configuration);
        caches.put(name, played);
    }

    /** A missing key is its own value; one with '-' has none, and one with '!' fails. */
    private static final class Echo implements CacheLoader<String, String> {
        @Override
        public String load(String key) {
            if (key.startsWith("!")) {
                throw new CacheLoaderException();
            }
            return key.startsWith("-") ? null : key;
        }

        @Override
        public Map<String, String> loadAll(Iterable<? extends String> keys) {
            Map<String, String> all = new LinkedHashMap<>();
            for (String key : keys) {
                String value = load(key);
                if (value != null) {
                    all.put(key, value);
                }
            }
            return all;
        }
    }

    /** Keeps nothing; keys with '!' fail. */
    private record Checking(Played played) implements CacheWriter<String, String> {
        private void check(Object key) {
            if (((String) key).startsWith("!")) {
                throw new CacheWriterException();
            }
            played.written++;
        }

        @Override
        public void write(Cache.Entry<? extends String, ? extends String> entry) {
            check(entry.getKey());
        }

        @Override
        public void writeAll(Collection<Cache.Entry<? extends String, ? extends String>> entries) {
            for (Iterator<Cache.Entry<? extends String, ? extends String>> each = entries.iterator(); each.hasNext();) {
                write(each.next());
                each.remove();
            }
        }

        @Override
        public void delete(Object key) {
            check(key);
        }

        @Override
        public void deleteAll(Collection<?> keys) {
            for (Iterator<?> each = keys.iterator(); each.hasNext();) {
                delete(each.next());
                each.remove();
            }
        }
    }

    private record Telling(Played played) implements CacheEntryCreatedListener<String, String>,
            CacheEntryUpdatedListener<String, String>, CacheEntryRemovedListener<String, String>,
            CacheEntryExpiredListener<String, String> {
        private void note(String kind, Iterable<CacheEntryEvent<? extends String, ? extends String>> events) {
            events.forEach(event -> played.events.add("event " + kind + " " + quoted(event.getKey())));
        }

        @Override
        public void onCreated(Iterable<CacheEntryEvent<? extends String, ? extends String>> events) {
            note("created", events);
        }

        @Override
        public void onUpdated(Iterable<CacheEntryEvent<? extends String, ? extends String>> events) {
            note("updated", events);
        }

        @Override
        public void onRemoved(Iterable<CacheEntryEvent<? extends String, ? extends String>> events) {
            note("removed", events);
        }

        @Override
        public void onExpired(Iterable<CacheEntryEvent<? extends String, ? extends String>> events) {
            note("expired", events);
        }
    }

    private static EntryProcessor<String, String, String> processor(char kind) {
        return switch (kind) {
            case 'a' -> (entry, words) -> {
                String before = entry.getValue();
                entry.setValue((before == null ? "" : before) + words[0]);
                return entry.getValue();
            };
            case 'f' -> (entry, words) -> {
                throw new EntryProcessorException();
            };
            case 'd' -> (entry, words) -> {
                String value = entry.exists() ? entry.getValue() : null;
                entry.remove();
                return value;
            };
            default -> (entry, words) -> entry.getValue();
        };
    }

    private void call(String session, Words of) throws Exception {
        Played played = caches.get(of.word());
        Clock.now = Long.parseLong(of.word());
        String op = of.word();
        played.written = 0;
        played.events.clear();
        String reply;
        try {
            reply = reply(played, op, of);
        } catch (CacheLoaderException e) {
            reply = "fault loader";
        } catch (CacheWriterException e) {
            reply = "fault writer" + (op.endsWith("_all") || op.endsWith("_keys") ? " after " + played.written : "");
        } catch (EntryProcessorException e) {
            reply = "fault processor";
        }
        if (op.equals("remove_all")) {
            Collections.sort(played.events);
        }
        played.events.forEach(event -> played.report.add(session + " " + event));
        played.report.add(session + " " + op + " " + reply);
    }

    private static String reply(Played played, String op, Words of) throws Exception {
        Cache<String, String> cache = played.cache;
        return switch (op) {
            case "get" -> found(cache.get(of.text()));
            case "contains" -> "" + cache.containsKey(of.text());
            case "put" -> done(() -> cache.put(of.text(), of.text()));
            case "get_and_put" -> found(cache.getAndPut(of.text(), of.text()));
            case "put_if_absent" -> "" + cache.putIfAbsent(of.text(), of.text());
            case "replace" -> "" + cache.replace(of.text(), of.text());
            case "replace_if" -> "" + cache.replace(of.text(), of.text(), of.text());
            case "get_and_replace" -> found(cache.getAndReplace(of.text(), of.text()));
            case "remove" -> "" + cache.remove(of.text());
            case "remove_if" -> "" + cache.remove(of.text(), of.text());
            case "get_and_remove" -> found(cache.getAndRemove(of.text()));
            case "invoke" -> found(cache.invoke(of.text(), processor(played.kinds.charAt(Integer.parseInt(of.word()))),
                    of.text()));
            case "clear" -> done(cache::clear);
            case "remove_all" -> done(cache::removeAll);
            case "stats" -> Caches.counters(cache);
            case "clear_stats" -> done(() -> Caches.statistics(cache).clear());
            default -> many(played, op, of);
        };
    }

    private static String many(Played played, String op, Words of) throws Exception {
        Cache<String, String> cache = played.cache;
        if (op.equals("entries")) {
            List<String> pairs = new ArrayList<>();
            cache.forEach(entry -> pairs.add(" " + quoted(entry.getKey()) + "=" + quoted(entry.getValue())));
            Collections.sort(pairs);
            return "pairs" + String.join("", pairs);
        }
        List<String> texts = of.texts();
        Set<String> keys = new LinkedHashSet<>(texts);
        switch (op) {
            case "get_all":
                StringBuilder pairs = new StringBuilder("pairs");
                cache.getAll(keys).forEach((key, value) -> pairs.append(" ").append(quoted(key)).append("=")
                        .append(quoted(value)));
                return pairs.toString();
            case "put_all":
                Map<String, String> given = new LinkedHashMap<>();
                for (int i = 0; i < texts.size(); i += 2) {
                    given.put(texts.get(i), texts.get(i + 1));
                }
                return done(() -> cache.putAll(given));
            case "remove_keys":
                return done(() -> cache.removeAll(keys));
            case "load_all":
                return loaded(cache, keys, of.word().equals("1"));
            default:
                EntryProcessor<String, String,
                        String> processor = processor(played.kinds.charAt(Integer.parseInt(of.word())));
                return results(keys, cache.invokeAll(keys, processor, of.text()));
        }
    }

    private static String loaded(Cache<String, String> cache, Set<String> keys, boolean replace) throws Exception {
        CompletionListenerFuture future = new CompletionListenerFuture();
        cache.loadAll(keys, replace, future);
        try {
            future.get();
        } catch (ExecutionException e) {
            throw (Exception) e.getCause();
        }
        return "ok";
    }

    private static String results(Set<String> keys, Map<String, EntryProcessorResult<String>> results) {
        StringBuilder text = new StringBuilder("results");
        for (String key : keys) {
            EntryProcessorResult<String> result = results.get(key);
            if (result == null) {
                continue;
            }
            text.append(" ").append(quoted(key)).append("=");
            try {
                text.append(found(result.get()));
            } catch (EntryProcessorException e) {
                text.append("fault");
            }
        }
        return text.toString();
    }

    private static String done(Check.Body body) throws Exception {
        body.run();
        return "ok";
    }

    private static String found(String value) {
        return value == null ? "none" : "some " + quoted(value);
    }

    private static String quoted(String text) {
        return '"' + text + '"';
    }
}
