package jcache.jsr107;

import java.net.URI;
import java.util.ArrayList;
import java.util.HashMap;
import java.util.List;
import java.util.Map;
import java.util.Properties;
import javax.cache.CacheManager;
import javax.cache.configuration.OptionalFeature;
import javax.cache.spi.CachingProvider;

/** The provider that {@code Caching.getCachingProvider()} finds. It has one manager for each class loader and URI. */
public final class JcacheProvider implements CachingProvider {
    private static final URI DEFAULT_URI = URI.create("jcache:default");

    private final Map<ClassLoader, Map<URI, JcacheManager>> managers = new HashMap<>();

    @Override
    public synchronized CacheManager getCacheManager(URI uri, ClassLoader classes, Properties properties) {
        URI name = uri == null ? getDefaultURI() : uri;
        ClassLoader loader = classes == null ? getDefaultClassLoader() : classes;
        return managers.computeIfAbsent(loader, any -> new HashMap<>()).computeIfAbsent(name, any -> {
            Properties copy = new Properties();
            if (properties != null) {
                properties.stringPropertyNames().forEach(each -> copy.setProperty(each, properties.getProperty(each)));
            }
            return new JcacheManager(this, name, loader, copy);
        });
    }

    @Override
    public CacheManager getCacheManager(URI uri, ClassLoader classes) {
        return getCacheManager(uri, classes, getDefaultProperties());
    }

    @Override
    public CacheManager getCacheManager() {
        return getCacheManager(null, null, null);
    }

    @Override
    public ClassLoader getDefaultClassLoader() {
        return getClass().getClassLoader();
    }

    @Override
    public URI getDefaultURI() {
        return DEFAULT_URI;
    }

    @Override
    public Properties getDefaultProperties() {
        return new Properties();
    }

    /** Storing by reference is the one optional feature, and is not supported. */
    @Override
    public boolean isSupported(OptionalFeature feature) {
        return false;
    }

    @Override
    public void close() {
        List<JcacheManager> all = new ArrayList<>();
        synchronized (this) {
            managers.values().forEach(each -> all.addAll(each.values()));
        }
        all.forEach(JcacheManager::close);
    }

    @Override
    public void close(ClassLoader classes) {
        managersOf(classes).forEach(JcacheManager::close);
    }

    private synchronized List<JcacheManager> managersOf(ClassLoader classes) {
        Map<URI, JcacheManager> found = managers.get(classes == null ? getDefaultClassLoader() : classes);
        return found == null ? List.of() : new ArrayList<>(found.values());
    }

    @Override
    public void close(URI uri, ClassLoader classes) {
        URI name = uri == null ? getDefaultURI() : uri;
        for (JcacheManager manager : managersOf(classes)) {
            if (manager.getURI().equals(name)) {
                manager.close();
            }
        }
    }

    synchronized void release(JcacheManager manager) {
        Map<URI, JcacheManager> found = managers.get(manager.getClassLoader());
        if (found != null) {
            found.remove(manager.getURI(), manager);
        }
    }
}
