package jcache.jsr107;

import java.util.Iterator;
import java.util.LinkedHashMap;
import java.util.Map;
import java.util.Objects;
import java.util.Set;
import java.util.function.Supplier;
import javax.cache.Cache;
import javax.cache.CacheException;
import javax.cache.CacheManager;
import javax.cache.configuration.CacheEntryListenerConfiguration;
import javax.cache.configuration.CompleteConfiguration;
import javax.cache.configuration.Configuration;
import javax.cache.configuration.MutableConfiguration;
import javax.cache.expiry.ExpiryPolicy;
import javax.cache.integration.CompletionListener;
import javax.cache.management.CacheMXBean;
import javax.cache.management.CacheStatisticsMXBean;
import javax.cache.processor.EntryProcessor;
import javax.cache.processor.EntryProcessorException;
import javax.cache.processor.EntryProcessorResult;

/** A cache: what comes in is checked, the call is made, and what happened is told. */
final class JcacheCache<K, V> implements Cache<K, V> {
    private final JcacheManager manager;
    private final String name;
    private final MutableConfiguration<K, V> configuration;
    private final Types<K, V> types;
    private final Telling<K, V> telling;
    private final ExpiryPolicy policy;
    private final Through<K, V> through;
    private final Store<K, V> store;
    private final KeyCalls<K, V> calls;
    private final ManyCalls<K, V> manyCalls;
    private final Processing<K, V> processing;
    private final Counters counters;
    private final Beans beans;
    private volatile boolean isClosed;

    JcacheCache(JcacheManager manager, String name, CompleteConfiguration<K, V> given, Settings settings) {
        this.manager = manager;
        this.name = name;
        configuration = new MutableConfiguration<>(given);
        types = new Types<>(given.getKeyType(), given.getValueType());
        Codec codec = new Codec(settings.serializer(given.getKeyType(), given.getValueType()), manager.getClassLoader());
        policy = configuration.getExpiryPolicyFactory().create();
        Expiry expiry = Expiry.of(policy);
        telling = new Telling<>(this, codec, expiry.isOwn());
        configuration.getCacheEntryListenerConfigurations().forEach(telling::register);
        through = new Through<>(configuration);
        store = new Store<>(settings, codec, expiry, through, telling);
        calls = new KeyCalls<>(store, types);
        manyCalls = new ManyCalls<>(store, calls, types);
        processing = new Processing<>(store, calls, types);
        counters = new Counters(store.parts());
        beans = new Beans(manager.getURI().toString(), name);
    }

    /** Registers the beans that its configuration asks for. */
    void begin() {
        setStatisticsEnabled(configuration.isStatisticsEnabled());
        setManagementEnabled(configuration.isManagementEnabled());
    }

    private void checkOpen() {
        if (isClosed) {
            throw new IllegalStateException("the cache " + name + " is closed");
        }
    }

    private void checkKey(K key) {
        checkOpen();
        types.checkKey(key);
    }

    private void checkPair(K key, V value) {
        checkKey(key);
        types.checkValue(value);
    }

    /** Makes a call, and tells what happened also where it fails. */
    private <R> R made(Counters.Kind kind, Supplier<R> call) {
        long began = counters.begin();
        boolean tells = telling.begin();
        R result;
        try {
            result = call.get();
        } catch (RuntimeException | Error e) {
            tellAfter(e, tells);
            throw e;
        }
        if (tells) {
            telling.end();
        }
        if (kind != null) {
            counters.end(kind, began);
        }
        return result;
    }

    private void tellAfter(Throwable failure, boolean tells) {
        try {
            if (tells) {
                telling.end();
            }
        } catch (RuntimeException also) {
            failure.addSuppressed(also);
        }
    }

    private void done(Counters.Kind kind, Runnable call) {
        made(kind, () -> {
            call.run();
            return null;
        });
    }

    // Calls on one key.

    @Override
    public V get(K key) {
        checkKey(key);
        return made(Counters.Kind.GET, () -> calls.get(key));
    }

    @Override
    public boolean containsKey(K key) {
        checkKey(key);
        return made(null, () -> calls.contains(key));
    }

    private KeyCalls.Changed change(KeyCalls.Change change, K key, V value) {
        checkPair(key, value);
        return made(Counters.Kind.PUT, () -> calls.change(change, key, value));
    }

    @Override
    public void put(K key, V value) {
        change(KeyCalls.Change.PUT, key, value);
    }

    @Override
    public V getAndPut(K key, V value) {
        return store.value(change(KeyCalls.Change.GET_AND_PUT, key, value).before());
    }

    @Override
    public boolean putIfAbsent(K key, V value) {
        return change(KeyCalls.Change.PUT_IF_ABSENT, key, value).isDone();
    }

    @Override
    public boolean replace(K key, V value) {
        return change(KeyCalls.Change.REPLACE, key, value).isDone();
    }

    @Override
    public V getAndReplace(K key, V value) {
        return store.value(change(KeyCalls.Change.GET_AND_REPLACE, key, value).before());
    }

    @Override
    public boolean replace(K key, V old, V value) {
        checkPair(key, old);
        types.checkValue(value);
        return made(Counters.Kind.PUT, () -> calls.replace(key, old, value));
    }

    @Override
    public boolean remove(K key) {
        checkKey(key);
        return made(Counters.Kind.REMOVE, () -> calls.remove(key));
    }

    @Override
    public boolean remove(K key, V old) {
        checkPair(key, old);
        return made(Counters.Kind.REMOVE, () -> calls.remove(key, old));
    }

    @Override
    public V getAndRemove(K key) {
        checkKey(key);
        return store.value(made(Counters.Kind.REMOVE, () -> calls.getAndRemove(key)));
    }

    @Override
    public <T> T invoke(K key, EntryProcessor<K, V, T> processor, Object... arguments) {
        checkKey(key);
        Objects.requireNonNull(processor, "processor");
        return made(null, () -> processing.invoke(key, processor, arguments));
    }

    // Calls on many keys, and on all.

    @Override
    public Map<K, V> getAll(Set<? extends K> keys) {
        checkOpen();
        Set<K> checked = types.checkedKeys(keys);
        return made(Counters.Kind.GET, () -> manyCalls.getAll(checked));
    }

    @Override
    public void putAll(Map<? extends K, ? extends V> pairs) {
        checkOpen();
        Map<K, V> checked = types.checkedPairs(pairs);
        done(Counters.Kind.PUT, () -> manyCalls.putAll(checked));
    }

    @Override
    public void removeAll(Set<? extends K> keys) {
        checkOpen();
        Set<K> checked = types.checkedKeys(keys);
        done(Counters.Kind.REMOVE, () -> manyCalls.removeAll(checked));
    }

    @Override
    public void removeAll() {
        checkOpen();
        done(Counters.Kind.REMOVE, manyCalls::removeAll);
    }

    @Override
    public void clear() {
        checkOpen();
        manyCalls.clear();
    }

    /** Each key by itself: one that fails keeps no other from its result. */
    @Override
    public <T> Map<K, EntryProcessorResult<T>> invokeAll(Set<? extends K> keys, EntryProcessor<K, V, T> processor,
            Object... arguments) {
        checkOpen();
        Set<K> checked = types.checkedKeys(keys);
        Objects.requireNonNull(processor, "processor");
        Map<K, EntryProcessorResult<T>> results = new LinkedHashMap<>();
        for (K key : checked) {
            try {
                T result = made(null, () -> processing.invoke(key, processor, arguments));
                if (result != null) {
                    results.put(key, () -> result);
                }
            } catch (RuntimeException e) {
                RuntimeException failure = e instanceof EntryProcessorException ? e : new EntryProcessorException(e);
                results.put(key, () -> {
                    throw failure;
                });
            }
        }
        return results;
    }

    @Override
    public void loadAll(Set<? extends K> keys, boolean replace, CompletionListener listener) {
        checkOpen();
        Set<K> checked = types.checkedKeys(keys);
        manager.later(() -> {
            Exception failure = loadFailure(checked, replace);
            if (listener == null) {
                return;
            }
            if (failure == null) {
                listener.onCompletion();
            } else {
                listener.onException(failure);
            }
        });
    }

    /** Loads keys. What ends that, or null: an error too, for somebody may wait to be told. */
    private Exception loadFailure(Set<K> keys, boolean replace) {
        try {
            if (through.hasLoader()) {
                done(null, () -> manyCalls.loadAll(keys, replace));
            }
            return null;
        } catch (RuntimeException e) {
            return e;
        } catch (Error e) {
            return new CacheException(e);
        }
    }

    @Override
    public Iterator<Cache.Entry<K, V>> iterator() {
        checkOpen();
        return new Entries<>(store, calls, this::remove);
    }

    // Listeners.

    @Override
    public void registerCacheEntryListener(CacheEntryListenerConfiguration<K, V> listener) {
        checkOpen();
        Objects.requireNonNull(listener, "listener");
        synchronized (configuration) {
            configuration.addCacheEntryListenerConfiguration(listener);
            try {
                for (Part part : store.parts()) {
                    part.listen();
                }
                telling.register(listener);
            } catch (RuntimeException e) {
                configuration.removeCacheEntryListenerConfiguration(listener);
                throw e;
            }
        }
    }

    @Override
    public void deregisterCacheEntryListener(CacheEntryListenerConfiguration<K, V> listener) {
        checkOpen();
        Objects.requireNonNull(listener, "listener");
        synchronized (configuration) {
            configuration.removeCacheEntryListenerConfiguration(listener);
            telling.deregister(listener);
        }
    }

    // Its name, its life.

    @Override
    public <C extends Configuration<K, V>> C getConfiguration(Class<C> type) {
        synchronized (configuration) {
            return Unwrapping.unwrap(new MutableConfiguration<>(configuration), type);
        }
    }

    @Override
    public String getName() {
        return name;
    }

    @Override
    public CacheManager getCacheManager() {
        return manager;
    }

    @Override
    public boolean isClosed() {
        return isClosed;
    }

    @Override
    public <T> T unwrap(Class<T> type) {
        return Unwrapping.unwrap(this, type);
    }

    /** Frees its memory. What the user gave is closed where it is Closeable. */
    @Override
    public void close() {
        synchronized (configuration) {
            if (isClosed) {
                return;
            }
            isClosed = true;
        }
        manager.release(this);
        beans.set(Beans.STATISTICS, null, CacheStatisticsMXBean.class);
        beans.set(Beans.CONFIGURATION, null, CacheMXBean.class);
        beans.set(Beans.MEMORY, null, CacheMemoryMXBean.class);
        store.close();
        through.close();
        Closing.close(policy);
        telling.close();
    }

    void setStatisticsEnabled(boolean enabled) {
        synchronized (configuration) {
            counters.setEnabled(enabled);
            configuration.setStatisticsEnabled(enabled);
            beans.set(Beans.STATISTICS, enabled ? counters : null, CacheStatisticsMXBean.class);
            beans.set(Beans.MEMORY, enabled ? new Beans.Memory(store) : null, CacheMemoryMXBean.class);
        }
    }

    void setManagementEnabled(boolean enabled) {
        synchronized (configuration) {
            configuration.setManagementEnabled(enabled);
            beans.set(Beans.CONFIGURATION, enabled ? new Beans.Configuration(configuration) : null, CacheMXBean.class);
        }
    }
}
