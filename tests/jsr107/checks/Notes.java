package checks;

import java.io.Closeable;
import java.util.ArrayList;
import java.util.Collections;
import java.util.List;
import javax.cache.event.CacheEntryCreatedListener;
import javax.cache.event.CacheEntryEvent;
import javax.cache.event.CacheEntryExpiredListener;
import javax.cache.event.CacheEntryRemovedListener;
import javax.cache.event.CacheEntryUpdatedListener;

/** Notes what it hears, as kind, key, value and old value. */
final class Notes implements CacheEntryCreatedListener<String, String>, CacheEntryUpdatedListener<String, String>,
        CacheEntryRemovedListener<String, String>, CacheEntryExpiredListener<String, String>, Closeable {
    final List<String> heard = Collections.synchronizedList(new ArrayList<>());
    boolean isClosed;

    private void note(Iterable<CacheEntryEvent<? extends String, ? extends String>> events) {
        for (CacheEntryEvent<? extends String, ? extends String> each : events) {
            heard.add(each.getEventType() + " " + each.getKey() + " " + each.getValue() + " " + each.getOldValue());
        }
    }

    @Override
    public void onCreated(Iterable<CacheEntryEvent<? extends String, ? extends String>> events) {
        note(events);
    }

    @Override
    public void onUpdated(Iterable<CacheEntryEvent<? extends String, ? extends String>> events) {
        note(events);
    }

    @Override
    public void onRemoved(Iterable<CacheEntryEvent<? extends String, ? extends String>> events) {
        note(events);
    }

    @Override
    public void onExpired(Iterable<CacheEntryEvent<? extends String, ? extends String>> events) {
        note(events);
    }

    @Override
    public void close() {
        isClosed = true;
    }
}
