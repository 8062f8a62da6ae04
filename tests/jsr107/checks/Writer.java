package checks;

import java.io.Closeable;
import java.util.ArrayList;
import java.util.Collection;
import java.util.HashMap;
import java.util.Iterator;
import java.util.List;
import java.util.Map;
import javax.cache.Cache;
import javax.cache.integration.CacheWriter;

/** Keeps what is written; keys that begin with '!' fail. */
final class Writer implements CacheWriter<String, String>, Closeable {
    final Map<String, String> store = new HashMap<>();
    final List<String> deleted = new ArrayList<>();
    boolean isClosed;

    @Override
    public void write(Cache.Entry<? extends String, ? extends String> entry) {
        check(entry.getKey());
        store.put(entry.getKey(), entry.getValue());
    }

    private static void check(Object key) {
        if (key.toString().startsWith("!")) {
            throw new IllegalStateException("no " + key);
        }
    }

    @Override
    public void writeAll(Collection<Cache.Entry<? extends String, ? extends String>> entries) {
        for (Iterator<Cache.Entry<? extends String, ? extends String>> each = entries.iterator(); each.hasNext();) {
            write(each.next());
            each.remove();
        }
    }

    @Override
    public void delete(Object key) {
        check(key);
        deleted.add((String) key);
        store.remove(key);
    }

    @Override
    public void deleteAll(Collection<?> keys) {
        for (Iterator<?> each = keys.iterator(); each.hasNext();) {
            delete(each.next());
            each.remove();
        }
    }

    @Override
    public void close() {
        isClosed = true;
    }
}
