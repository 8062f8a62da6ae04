package checks;

import java.net.URI;
import java.util.Properties;
import java.util.concurrent.TimeUnit;
import java.util.concurrent.atomic.AtomicInteger;
import java.util.function.Consumer;
import javax.cache.Cache;
import javax.cache.CacheManager;
import javax.cache.Caching;
import javax.cache.configuration.CompleteConfiguration;
import javax.cache.configuration.Factory;
import javax.cache.configuration.MutableConfiguration;
import javax.cache.expiry.CreatedExpiryPolicy;
import javax.cache.expiry.Duration;
import javax.cache.management.CacheStatisticsMXBean;
import javax.management.JMX;
import javax.management.MBeanServer;
import javax.management.ObjectName;

/** Caches for checks, each with a name of its own. */
final class Caches {
    private static final AtomicInteger COUNT = new AtomicInteger();
    static final Duration SHORT = new Duration(TimeUnit.MILLISECONDS, 100);

    private Caches() {}

    /** A manager by the checks' clock; the words are names and values of properties. */
    static CacheManager manager(String... words) {
        Properties properties = new Properties();
        properties.setProperty("jcache.clock", "checks.Clock");
        for (int i = 0; i < words.length; i += 2) {
            properties.setProperty(words[i], words[i + 1]);
        }
        URI uri = URI.create("checks:" + COUNT.incrementAndGet());
        return Caching.getCachingProvider().getCacheManager(uri, Caches.class.getClassLoader(), properties);
    }

    /** Runs a body on a new cache, and closes its manager. */
    static <K, V> void with(MutableConfiguration<K, V> configuration, CacheBody<K, V> body,
            String... words) throws Exception {
        try (CacheManager manager = manager(words)) {
            body.run(manager.createCache("cache", configuration));
        }
    }

    /** What is done with a cache. */
    interface CacheBody<K, V> {
        void run(Cache<K, V> cache) throws Exception;
    }

    static MutableConfiguration<String, String> texts() {
        return new MutableConfiguration<String, String>().setTypes(String.class, String.class);
    }

    static MutableConfiguration<Object, Object> objects() {
        return new MutableConfiguration<>();
    }

    static MutableConfiguration<String, String> expiring() {
        return texts().setExpiryPolicyFactory(CreatedExpiryPolicy.factoryOf(SHORT));
    }

    /** A factory that gives this very object. */
    static <T> Factory<T> gives(T object) {
        return () -> object;
    }

    static <K, V> MutableConfiguration<K, V> also(MutableConfiguration<K, V> configuration,
            Consumer<MutableConfiguration<K, V>> change) {
        change.accept(configuration);
        return configuration;
    }

    @SuppressWarnings("unchecked")
    static <K, V> CompleteConfiguration<K, V> configuration(Cache<K, V> cache) {
        return cache.getConfiguration(CompleteConfiguration.class);
    }

    static ObjectName bean(Cache<?, ?> cache, String type) throws Exception {
        String manager = cache.getCacheManager().getURI().toString().replaceAll("[,:=\n]", ".");
        return new ObjectName("javax.cache:type=" + type + ",CacheManager=" + manager + ",Cache=" + cache.getName());
    }

    static MBeanServer server() {
        return java.lang.management.ManagementFactory.getPlatformMBeanServer();
    }

    static CacheStatisticsMXBean statistics(Cache<?, ?> cache) throws Exception {
        return JMX.newMXBeanProxy(server(), bean(cache, "CacheStatistics"), CacheStatisticsMXBean.class);
    }

    /** Hits, misses, puts, removals, evictions. */
    static String counters(Cache<?, ?> cache) throws Exception {
        CacheStatisticsMXBean bean = statistics(cache);
        return bean.getCacheHits() + " " + bean.getCacheMisses() + " " + bean.getCachePuts() + " " + bean.getCacheRemovals()
                + " " + bean.getCacheEvictions();
    }
}
