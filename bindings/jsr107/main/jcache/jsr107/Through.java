package jcache.jsr107;

import java.util.Collection;
import java.util.Map;
import java.util.Set;
import javax.cache.Cache;
import javax.cache.configuration.CompleteConfiguration;
import javax.cache.configuration.Factory;
import javax.cache.integration.CacheLoader;
import javax.cache.integration.CacheLoaderException;
import javax.cache.integration.CacheWriter;
import javax.cache.integration.CacheWriterException;

/** The user's loader and writer. What they throw is wrapped as JSR 107 says. */
final class Through<K, V> {
    private final CacheLoader<K, V> loader;
    private final CacheWriter<? super K, ? super V> writer;
    private final boolean readsThrough;

    Through(CompleteConfiguration<K, V> configuration) {
        Factory<CacheLoader<K, V>> loaders = configuration.getCacheLoaderFactory();
        Factory<CacheWriter<? super K, ? super V>> writers = configuration.getCacheWriterFactory();
        loader = loaders == null ? null : loaders.create();
        writer = writers == null || !configuration.isWriteThrough() ? null : writers.create();
        readsThrough = loader != null && configuration.isReadThrough();
    }

    boolean hasLoader() {
        return loader != null;
    }

    /** Whether missing keys are loaded. */
    boolean readsThrough() {
        return readsThrough;
    }

    boolean writes() {
        return writer != null;
    }

    V load(K key) {
        try {
            return loader.load(key);
        } catch (CacheLoaderException e) {
            throw e;
        } catch (RuntimeException e) {
            throw new CacheLoaderException(e);
        }
    }

    Map<K, V> loadAll(Set<K> keys) {
        try {
            return loader.loadAll(keys);
        } catch (CacheLoaderException e) {
            throw e;
        } catch (RuntimeException e) {
            throw new CacheLoaderException(e);
        }
    }

    void write(K key, V value) {
        run(() -> writer.write(new Pair<>(key, value)));
    }

    void delete(K key) {
        run(() -> writer.delete(key));
    }

    /** Leaves in the list what is not written. */
    @SuppressWarnings({"unchecked", "rawtypes"})
    void writeAll(Collection<Cache.Entry<? extends K, ? extends V>> entries) {
        run(() -> ((CacheWriter) writer).writeAll(entries));
    }

    /** Leaves in the list what is not deleted. */
    void deleteAll(Collection<K> keys) {
        run(() -> writer.deleteAll(keys));
    }

    private static void run(Runnable call) {
        try {
            call.run();
        } catch (CacheWriterException e) {
            throw e;
        } catch (RuntimeException e) {
            throw new CacheWriterException(e);
        }
    }

    void close() {
        Closing.close(loader);
        Closing.close(writer);
    }
}
