import com.github.benmanes.caffeine.cache.Cache;
import com.github.benmanes.caffeine.cache.Caffeine;
import java.io.IOException;
import java.nio.file.Files;
import java.nio.file.Path;
import java.util.List;

/** Counts the hits of a trace, a key a line, by Caffeine's W-TinyLFU: CaffeineHits TRACE CAPACITY.. */
final class CaffeineHits {
    private CaffeineHits() {}

    /** Each key is looked up, and put where it is missing; maintenance is done at once, by this thread. */
    private static int hits(List<String> keys, int capacity) {
        Cache<String, String> cache = Caffeine.newBuilder().maximumSize(capacity).executor(Runnable::run).build();
        int hits = 0;
        for (String key : keys) {
            if (cache.getIfPresent(key) != null) {
                hits++;
            } else {
                cache.put(key, key);
            }
            cache.cleanUp();
        }
        return hits;
    }

    public static void main(String[] words) throws IOException {
        List<String> keys = Files.readAllLines(Path.of(words[0]));
        for (int i = 1; i < words.length; i++) {
            System.out.println(hits(keys, Integer.parseInt(words[i])));
        }
    }
}
