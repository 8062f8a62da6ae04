package checks;

import static checks.Check.holds;
import static checks.Check.same;
import static checks.Check.thrown;

import java.net.URI;
import java.net.URL;
import java.net.URLClassLoader;
import java.nio.file.Path;
import java.util.ArrayList;
import java.util.List;
import java.util.Properties;
import java.util.Set;
import javax.cache.Cache;
import javax.cache.CacheException;
import javax.cache.CacheManager;
import javax.cache.Caching;
import javax.cache.configuration.CompleteConfiguration;
import javax.cache.configuration.Configuration;
import javax.cache.configuration.MutableConfiguration;
import javax.cache.configuration.OptionalFeature;
import javax.cache.expiry.EternalExpiryPolicy;
import javax.cache.spi.CachingProvider;

/** Caching Providers and Cache Managers, and what configurations are checked for. */
final class ProviderChecks {
    private ProviderChecks() {}

    static void run() {
        provider();
        ends();
        loaders();
        managers();
        destroyed();
        caches();
        closed();
        configurations();
        settings();
    }

    private static CachingProvider found() {
        return Caching.getCachingProvider();
    }

    private static void provider() {
        Check.that("Caching.getCachingProvider", "finds it by META-INF/services",
                () -> same("jcache.jsr107.JcacheProvider", found().getClass().getName()));
        Check.that("Caching.getCachingProvider", "finds it by its name",
                () -> holds(Caching.getCachingProvider("jcache.jsr107.JcacheProvider") == found()));
        Check.that("CachingProvider.getDefaultURI", "is some", () -> holds(found().getDefaultURI() != null));
        Check.that("CachingProvider.getDefaultClassLoader", "is some", () -> holds(found().getDefaultClassLoader() != null));
        Check.that("CachingProvider.getDefaultProperties", "are some", () -> holds(found().getDefaultProperties() != null));
        Check.that("CachingProvider.isSupported", "not storing by reference",
                () -> holds(!found().isSupported(OptionalFeature.STORE_BY_REFERENCE)));
        Check.that("CachingProvider.getCacheManager", "the same for the same class loader and URI", () -> {
            ClassLoader classes = Checks.class.getClassLoader();
            URI uri = URI.create("checks:same");
            CacheManager manager = found().getCacheManager(uri, classes);
            holds(found().getCacheManager(uri, classes) == manager);
            holds(found().getCacheManager(URI.create("checks:other"), classes) != manager);
            found().close(classes);
            holds(manager.isClosed() && found().getCacheManager(uri, classes) != manager);
            found().close(uri, classes);
        });
        Check.that("CachingProvider.getCacheManager", "null is the default", () -> {
            CacheManager manager = found().getCacheManager();
            holds(found().getCacheManager(null, null, null) == manager);
            same(found().getDefaultURI(), manager.getURI());
            same(found().getDefaultClassLoader(), manager.getClassLoader());
            manager.close();
        });
    }

    private static void ends() {
        Check.that("CachingProvider.close", "closes all managers, and goes on", () -> {
            CacheManager manager = found().getCacheManager();
            found().close();
            holds(manager.isClosed());
            CacheManager next = found().getCacheManager();
            holds(!next.isClosed());
            next.close();
        });
        Check.that("CachingProvider.close(uri, class loader)", "closes one manager", () -> {
            CacheManager some = found().getCacheManager(URI.create("checks:some"), null);
            CacheManager other = found().getCacheManager(URI.create("checks:other"), null);
            found().close(some.getURI(), some.getClassLoader());
            holds(some.isClosed() && !other.isClosed());
            other.close();
        });
        Check.that("CacheManager.getProperties", "those that it was made with", () -> {
            try (CacheManager manager = Caches.manager("jcache.capacity", "7")) {
                same("7", manager.getProperties().getProperty("jcache.capacity"));
            }
        });
    }

    private static void loaders() {
        Check.that("CachingProvider", "two class loaders of one process have it each", () -> {
            List<URL> jars = new ArrayList<>();
            for (String each : System.getProperty("java.class.path").split(":")) {
                jars.add(Path.of(each).toUri().toURL());
            }
            try (URLClassLoader other = new URLClassLoader(jars.toArray(new URL[0]), ClassLoader.getPlatformClassLoader())) {
                Class<?> type = other.loadClass("jcache.jsr107.JcacheProvider");
                holds(type != found().getClass());
                Object manager = type.getMethod("getCacheManager").invoke(type.getConstructor().newInstance());
                Object configuration = other.loadClass("javax.cache.configuration.MutableConfiguration").getConstructor()
                        .newInstance();
                Class<?> kind = other.loadClass("javax.cache.configuration.Configuration");
                Class<?> managers = other.loadClass("javax.cache.CacheManager");
                Object cache = managers.getMethod("createCache", String.class, kind).invoke(manager, "a", configuration);
                Class<?> caches = other.loadClass("javax.cache.Cache");
                caches.getMethod("put", Object.class, Object.class).invoke(cache, "k", "v");
                same("v", caches.getMethod("get", Object.class).invoke(cache, "k"));
                managers.getMethod("close").invoke(manager);
            }
        });
    }

    private static void managers() {
        Check.that("CacheManager.getCachingProvider", "its provider", () -> {
            try (CacheManager manager = Caches.manager()) {
                holds(manager.getCachingProvider() == found());
            }
        });
        Check.that("CacheManager.unwrap", "itself, and no other type", () -> {
            try (CacheManager manager = Caches.manager()) {
                holds(manager.unwrap(CacheManager.class) == manager);
                thrown(IllegalArgumentException.class, () -> manager.unwrap(String.class));
            }
        });
        Check.that("CacheManager.getCacheNames", "the names, as they were", () -> {
            try (CacheManager manager = Caches.manager()) {
                manager.createCache("a", Caches.texts());
                Iterable<String> names = manager.getCacheNames();
                manager.createCache("b", Caches.texts());
                List<String> seen = new ArrayList<>();
                names.forEach(seen::add);
                same(List.of("a"), seen);
                var each = names.iterator();
                each.next();
                thrown(UnsupportedOperationException.class, each::remove);
            }
        });
    }

    private static void destroyed() {
        Check.that("CacheManager.destroyCache", "closes it, and its name is free", () -> {
            try (CacheManager manager = Caches.manager()) {
                Cache<String, String> cache = manager.createCache("a", Caches.texts());
                cache.put("k", "v");
                manager.destroyCache("a");
                holds(cache.isClosed() && manager.getCache("a") == null);
                Cache<String, String> next = manager.createCache("a", Caches.texts());
                holds(!next.containsKey("k"));
                manager.destroyCache("none");
            }
        });
        Check.that("CacheManager.close", "closes its caches; twice is once", () -> {
            CacheManager manager = Caches.manager();
            Cache<String, String> cache = manager.createCache("a", Caches.texts());
            manager.close();
            manager.close();
            holds(manager.isClosed() && cache.isClosed());
        });
        Check.that("CacheManager", "caches of one name in two managers are two", () -> {
            try (CacheManager some = Caches.manager(); CacheManager other = Caches.manager()) {
                some.createCache("a", Caches.texts()).put("k", "v");
                holds(!other.createCache("a", Caches.texts()).containsKey("k"));
            }
        });
    }

    private static void caches() {
        Check.that("CacheManager.createCache", "two of one name are refused", () -> {
            try (CacheManager manager = Caches.manager()) {
                Cache<String, String> cache = manager.createCache("a", Caches.texts());
                thrown(CacheException.class, () -> manager.createCache("a", Caches.texts()));
                holds(!cache.isClosed());
            }
        });
        Check.that("CacheManager.createCache", "by reference is an UnsupportedOperationException", () -> {
            try (CacheManager manager = Caches.manager()) {
                thrown(UnsupportedOperationException.class,
                        () -> manager.createCache("a", Caches.texts().setStoreByValue(false)));
                holds(manager.getCache("a") == null);
            }
        });
        Check.that("CacheManager.createCache", "any name will do", () -> {
            try (CacheManager manager = Caches.manager()) {
                String name = "a name, with: = * \" and é ".repeat(20);
                manager.createCache(name, Caches.texts().setStatisticsEnabled(true)).put("k", "v");
                holds(manager.getCache(name).containsKey("k"));
            }
        });
        Check.that("CacheManager.getCache(name, types)", "of other types is a ClassCastException", () -> {
            try (CacheManager manager = Caches.manager()) {
                Cache<String, String> cache = manager.createCache("a", Caches.texts());
                holds(manager.getCache("a", String.class, String.class) == cache);
                thrown(ClassCastException.class, () -> manager.getCache("a", Integer.class, String.class));
                thrown(ClassCastException.class, () -> manager.getCache("a", String.class, Integer.class));
                same(null, manager.getCache("none", String.class, String.class));
            }
        });
        Check.that("CacheManager.getCache(name)", "also of a cache with types (1.1)", () -> {
            try (CacheManager manager = Caches.manager()) {
                Cache<String, String> cache = manager.createCache("a", Caches.texts());
                holds(manager.<String, String>getCache("a") == cache && manager.getCache("none") == null);
            }
        });
    }

    /** A call of a manager. */
    private interface Call {
        void on(CacheManager manager);
    }

    private static void refused(String method, Call closed, Call withNull) {
        Check.that("CacheManager." + method, "IllegalStateException where it is closed", () -> {
            CacheManager manager = Caches.manager();
            manager.close();
            thrown(IllegalStateException.class, () -> closed.on(manager));
        });
        if (withNull != null) {
            Check.that("CacheManager." + method, "NullPointerException at null", () -> {
                try (CacheManager manager = Caches.manager()) {
                    thrown(NullPointerException.class, () -> withNull.on(manager));
                }
            });
        }
    }

    private static void closed() {
        refused("createCache", manager -> manager.createCache("a", Caches.texts()), manager -> manager.createCache(null,
                Caches.texts()));
        refused("createCache, the configuration", manager -> manager.createCache("a", Caches.texts()), manager ->
                manager.createCache("a", null));
        refused("getCache", manager -> manager.getCache("a"), manager -> manager.getCache(null));
        refused("getCache(name, types)", manager -> manager.getCache("a", String.class, String.class), manager ->
                manager.getCache("a", null, null));
        refused("getCacheNames", CacheManager::getCacheNames, null);
        refused("destroyCache", manager -> manager.destroyCache("a"), manager -> manager.destroyCache(null));
        refused("enableManagement", manager -> manager.enableManagement("a", true), manager ->
                manager.enableManagement(null, true));
        refused("enableStatistics", manager -> manager.enableStatistics("a", true), manager ->
                manager.enableStatistics(null, true));
    }

    private static void configurations() {
        Check.that("Cache.getConfiguration", "a copy, of a type that it is", () -> Caches.with(Caches.texts(), cache -> {
            holds(Caches.configuration(cache).isStoreByValue());
            holds(Caches.configuration(cache).getKeyType() == String.class);
            thrown(IllegalArgumentException.class, () -> cache.getConfiguration(Other.class));
        }));
        Check.that("CacheManager.createCache", "later changes of the configuration change no cache", () -> {
            MutableConfiguration<String, String> configuration = Caches.texts();
            Caches.with(configuration, cache -> {
                configuration.setReadThrough(true);
                holds(!Caches.configuration(cache).isReadThrough());
            });
        });
        Check.that("CacheManager.createCache", "a plain Configuration has the defaults", () -> {
            try (CacheManager manager = Caches.manager()) {
                Cache<String, String> cache = manager.createCache("a", new Plain());
                CompleteConfiguration<String, String> complete = Caches.configuration(cache);
                holds(complete.getKeyType() == String.class && !complete.isReadThrough() && !complete.isStatisticsEnabled());
                same(EternalExpiryPolicy.factoryOf().create(), complete.getExpiryPolicyFactory().create());
            }
        });
    }

    /** A configuration that no cache has. */
    private abstract static class Other implements Configuration<String, String> {
        private static final long serialVersionUID = 1;
    }

    /** The least configuration. */
    private static final class Plain implements Configuration<String, String> {
        private static final long serialVersionUID = 1;

        @Override
        public Class<String> getKeyType() {
            return String.class;
        }

        @Override
        public Class<String> getValueType() {
            return String.class;
        }

        @Override
        public boolean isStoreByValue() {
            return true;
        }
    }

    private static long rows(Cache<?, ?> cache, String attribute) throws Exception {
        return (Long) Caches.server().getAttribute(Caches.bean(cache, "CacheMemory"), attribute);
    }

    private static void settings() {
        MutableConfiguration<String, String> counted = Caches.texts().setStatisticsEnabled(true);
        Check.that("ours, jcache.capacity", "10,000 where nothing is said",
                () -> Caches.with(counted, cache -> same(10_000L, rows(cache, "Capacity"))));
        Check.that("ours, jcache.capacity", "of one cache stands before the manager's", () -> Caches.with(counted,
                cache -> same(3L, rows(cache, "Capacity")), "jcache.capacity", "5", "jcache.capacity.cache", "3"));
        Check.that("ours, jcache.capacity", "no more entries than that are kept", () -> Caches.with(counted, cache -> {
            for (int i = 0; i < 10; i++) {
                cache.put("k" + i, "v");
            }
            same(3L, rows(cache, "Rows"));
        }, "jcache.capacity", "3"));
        Check.that("ours, jcache.parts", "each part has its share", () -> Caches.with(counted, cache -> {
            for (int i = 0; i < 1000; i++) {
                cache.put("k" + i, "v" + i);
                same("v" + i, cache.get("k" + i));
            }
            same(10L, rows(cache, "Capacity"));
            same(10L, rows(cache, "Rows"));
            holds(cache.getAll(Set.of("k999", "k998", "none")).containsKey("k999"));
            cache.removeAll();
            same(0L, rows(cache, "Rows"));
        }, "jcache.capacity", "10", "jcache.parts", "4"));
        for (String[] wrong : new String[][] {{"jcache.capacity", "0"}, {"jcache.capacity", "65537"},
                {"jcache.capacity", "many"}, {"jcache.parts", "65"}, {"jcache.oversize", "grow"},
                {"jcache.max_value", "65536"}, {"jcache.clock", "java.lang.String"}, {"jcache.serializer", "none.Such"}}) {
            Check.that("ours, " + wrong[0], wrong[1] + " is a CacheException that names it", () -> {
                Properties properties = new Properties();
                properties.setProperty(wrong[0], wrong[1]);
                try (CacheManager manager = found().getCacheManager(URI.create("checks:wrong"), null, properties)) {
                    CacheException thrown = thrown(CacheException.class, () -> manager.createCache("a", Caches.texts()));
                    holds(thrown.getMessage().contains(wrong[0]));
                }
            });
        }
    }
}
