package checks;

import javax.cache.CacheException;
import javax.cache.CacheManager;

/** Makes a cache, and prints why it can't, if it can't. */
public final class Unpacking {
    private Unpacking() {}

    public static void main(String[] words) {
        try (CacheManager manager = Caches.manager()) {
            manager.createCache("cache", Caches.texts()).put("k", "v");
            System.out.println("made");
        } catch (CacheException e) {
            System.out.println(e.getMessage());
        }
    }
}
