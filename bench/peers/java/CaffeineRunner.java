import com.github.benmanes.caffeine.cache.Cache;
import com.github.benmanes.caffeine.cache.Caffeine;
import java.io.IOException;

/** The job over Caffeine, bounded by maximumSize (W-TinyLFU), its upkeep on the calling thread. */
final class CaffeineRunner {
    private static final class Bounded implements Runner.Store {
        private final Cache<String, String> cache;

        Bounded(int capacity) {
            cache = Caffeine.newBuilder().maximumSize(capacity).executor(Runnable::run).recordStats().build();
        }

        @Override
        public String get(String key) {
            return cache.getIfPresent(key);
        }

        @Override
        public boolean contains(String key) {
            return cache.asMap().containsKey(key);
        }

        @Override
        public void put(String key, String value) {
            cache.put(key, value);
        }

        @Override
        public boolean remove(String key) {
            return cache.asMap().remove(key) != null;
        }

        @Override
        public long evictions() {
            cache.cleanUp();
            return cache.stats().evictionCount();
        }
    }

    private static final class Caches implements Runner.Maker {
        @Override
        public Runner.Store make(String name, int capacity) {
            return new Bounded(capacity);
        }

        @Override
        public void close() {}
    }

    public static void main(String[] words) throws IOException {
        Runner.main(words, Caches::new);
    }
}
