package checks;

import java.io.Closeable;
import java.util.ArrayList;
import java.util.LinkedHashMap;
import java.util.List;
import java.util.Map;
import javax.cache.integration.CacheLoader;

/** Loads a key as its own value in capitals; none for one that begins with '-', and fails for one with '!'. */
final class Loader implements CacheLoader<String, String>, Closeable {
    final List<String> loaded = new ArrayList<>();
    boolean isClosed;

    @Override
    public synchronized String load(String key) {
        loaded.add(key);
        if (key.startsWith("!")) {
            throw new IllegalStateException("no " + key);
        }
        return key.startsWith("-") ? null : key.toUpperCase();
    }

    @Override
    public Map<String, String> loadAll(Iterable<? extends String> keys) {
        Map<String, String> all = new LinkedHashMap<>();
        for (String key : keys) {
            String value = load(key);
            if (value != null) {
                all.put(key, value);
            }
        }
        return all;
    }

    @Override
    public void close() {
        isClosed = true;
    }
}
