import java.io.IOException;
import net.sf.ehcache.Cache;
import net.sf.ehcache.CacheManager;
import net.sf.ehcache.Ehcache;
import net.sf.ehcache.Element;
import net.sf.ehcache.config.CacheConfiguration;
import net.sf.ehcache.config.Configuration;
import net.sf.ehcache.event.CacheEventListenerAdapter;
import net.sf.ehcache.store.MemoryStoreEvictionPolicy;

/** The job over Ehcache 2, on heap alone, with its sampled LRU. */
final class EhcacheRunner {
    private static final class Evictions extends CacheEventListenerAdapter {
        long count;

        @Override
        public void notifyElementEvicted(Ehcache cache, Element element) {
            count++;
        }
    }

    private static final class Bounded implements Runner.Store {
        private final Cache cache;
        private final Evictions evictions = new Evictions();

        Bounded(CacheManager manager, String name, int capacity) {
            cache = new Cache(new CacheConfiguration(name, capacity)
                    .eternal(true)
                    .memoryStoreEvictionPolicy(MemoryStoreEvictionPolicy.LRU));
            manager.addCache(cache);
            cache.getCacheEventNotificationService().registerListener(evictions);
        }

        @Override
        public String get(String key) {
            Element element = cache.get(key);
            return element == null ? null : (String) element.getObjectValue();
        }

        @Override
        public boolean contains(String key) {
            return cache.isKeyInCache(key);
        }

        @Override
        public void put(String key, String value) {
            cache.put(new Element(key, value));
        }

        @Override
        public boolean remove(String key) {
            return cache.remove(key);
        }

        @Override
        public long evictions() {
            return evictions.count;
        }
    }

    private static final class Caches implements Runner.Maker {
        private final CacheManager manager =
                CacheManager.newInstance(new Configuration().name("bench").updateCheck(false));

        @Override
        public Runner.Store make(String name, int capacity) {
            return new Bounded(manager, name, capacity);
        }

        @Override
        public void close() {
            manager.shutdown();
        }
    }

    public static void main(String[] words) throws IOException {
        Runner.main(words, Caches::new);
    }
}
