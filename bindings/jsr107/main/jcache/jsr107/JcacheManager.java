package jcache.jsr107;

import java.net.URI;
import java.util.ArrayList;
import java.util.LinkedHashMap;
import java.util.List;
import java.util.Map;
import java.util.Objects;
import java.util.Properties;
import java.util.concurrent.ExecutorService;
import java.util.concurrent.Executors;
import java.util.function.BiConsumer;
import javax.cache.Cache;
import javax.cache.CacheException;
import javax.cache.CacheManager;
import javax.cache.configuration.CompleteConfiguration;
import javax.cache.configuration.Configuration;
import javax.cache.configuration.MutableConfiguration;
import javax.cache.spi.CachingProvider;

/** A manager of caches, each with seats of the library of its own. */
final class JcacheManager implements CacheManager {
    private final JcacheProvider provider;
    private final URI uri;
    private final ClassLoader classes;
    private final Properties properties;
    private final Map<String, JcacheCache<?, ?>> caches = new LinkedHashMap<>();
    private ExecutorService later;
    private volatile boolean isClosed;

    JcacheManager(JcacheProvider provider, URI uri, ClassLoader classes, Properties properties) {
        this.provider = provider;
        this.uri = uri;
        this.classes = classes;
        this.properties = properties;
    }

    private void checkOpen() {
        if (isClosed) {
            throw new IllegalStateException("the manager is closed");
        }
    }

    /** Runs what goes on in the background. */
    synchronized void later(Runnable task) {
        checkOpen();
        if (later == null) {
            later = Executors.newCachedThreadPool(run -> {
                Thread thread = new Thread(run, "jcache-loading");
                thread.setDaemon(true);
                return thread;
            });
        }
        later.execute(task);
    }

    @Override
    public synchronized <K, V, C extends Configuration<K, V>> Cache<K, V> createCache(String name, C configuration) {
        checkOpen();
        Objects.requireNonNull(name, "name");
        Objects.requireNonNull(configuration, "configuration");
        if (caches.containsKey(name)) {
            throw new CacheException("a cache " + name + " is there already");
        }
        if (!configuration.isStoreByValue()) {
            throw new UnsupportedOperationException("values are stored by value alone");
        }
        Settings settings = new Settings(properties, classes, name);
        JcacheCache<K, V> cache = new JcacheCache<>(this, name, complete(configuration), settings);
        caches.put(name, cache);
        cache.begin();
        return cache;
    }

    private static <K, V> CompleteConfiguration<K, V> complete(Configuration<K, V> configuration) {
        return configuration instanceof CompleteConfiguration<K, V> complete ? complete
                : new MutableConfiguration<K, V>().setTypes(configuration.getKeyType(), configuration.getValueType());
    }

    private synchronized JcacheCache<?, ?> cache(String name) {
        checkOpen();
        return caches.get(Objects.requireNonNull(name, "name"));
    }

    @Override
    @SuppressWarnings("unchecked")
    public <K, V> Cache<K, V> getCache(String name, Class<K> keys, Class<V> values) {
        Objects.requireNonNull(keys, "keys");
        Objects.requireNonNull(values, "values");
        JcacheCache<?, ?> cache = cache(name);
        if (cache == null) {
            return null;
        }
        Configuration<?, ?> configuration = cache.getConfiguration(Configuration.class);
        checkType("keys", configuration.getKeyType(), keys);
        checkType("values", configuration.getValueType(), values);
        return (Cache<K, V>) cache;
    }

    private static void checkType(String what, Class<?> declared, Class<?> wanted) {
        if (declared != wanted) {
            throw new ClassCastException("the cache's " + what + " are " + declared.getName() + ", and not "
                    + wanted.getName());
        }
    }

    /** As JSR 107, 1.1, has it: also of a cache with declared types. */
    @Override
    @SuppressWarnings("unchecked")
    public <K, V> Cache<K, V> getCache(String name) {
        return (Cache<K, V>) cache(name);
    }

    @Override
    public synchronized Iterable<String> getCacheNames() {
        checkOpen();
        return List.copyOf(caches.keySet());
    }

    @Override
    public void destroyCache(String name) {
        with(name, (cache, any) -> cache.close(), true);
    }

    @Override
    public void enableManagement(String name, boolean enabled) {
        with(name, JcacheCache::setManagementEnabled, enabled);
    }

    @Override
    public void enableStatistics(String name, boolean enabled) {
        with(name, JcacheCache::setStatisticsEnabled, enabled);
    }

    private void with(String name, BiConsumer<JcacheCache<?, ?>, Boolean> action, boolean flag) {
        JcacheCache<?, ?> cache = cache(name);
        if (cache != null) {
            action.accept(cache, flag);
        }
    }

    synchronized void release(JcacheCache<?, ?> cache) {
        caches.remove(cache.getName(), cache);
    }

    @Override
    public CachingProvider getCachingProvider() {
        return provider;
    }

    @Override
    public URI getURI() {
        return uri;
    }

    @Override
    public ClassLoader getClassLoader() {
        return classes;
    }

    @Override
    public Properties getProperties() {
        return properties;
    }

    @Override
    public boolean isClosed() {
        return isClosed;
    }

    @Override
    public <T> T unwrap(Class<T> type) {
        return Unwrapping.unwrap(this, type);
    }

    /** Closes all its caches. */
    @Override
    public void close() {
        List<JcacheCache<?, ?>> all;
        synchronized (this) {
            if (isClosed) {
                return;
            }
            isClosed = true;
            all = new ArrayList<>(caches.values());
            if (later != null) {
                later.shutdown();
            }
        }
        provider.release(this);
        all.forEach(JcacheCache::close);
    }
}
