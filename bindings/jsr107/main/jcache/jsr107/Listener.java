package jcache.jsr107;

import java.util.ArrayList;
import java.util.List;
import javax.cache.configuration.CacheEntryListenerConfiguration;
import javax.cache.configuration.Factory;
import javax.cache.event.CacheEntryCreatedListener;
import javax.cache.event.CacheEntryEvent;
import javax.cache.event.CacheEntryEventFilter;
import javax.cache.event.CacheEntryExpiredListener;
import javax.cache.event.CacheEntryListener;
import javax.cache.event.CacheEntryListenerException;
import javax.cache.event.CacheEntryRemovedListener;
import javax.cache.event.CacheEntryUpdatedListener;
import javax.cache.event.EventType;

/** A listener that is registered, with its filter. */
final class Listener<K, V> {
    private final CacheEntryListenerConfiguration<K, V> configuration;
    private final CacheEntryListener<? super K, ? super V> listener;
    private final CacheEntryEventFilter<? super K, ? super V> filter;

    Listener(CacheEntryListenerConfiguration<K, V> configuration) {
        this.configuration = configuration;
        listener = configuration.getCacheEntryListenerFactory().create();
        Factory<CacheEntryEventFilter<? super K, ? super V>> factory = configuration.getCacheEntryEventFilterFactory();
        filter = factory == null ? null : factory.create();
    }

    boolean isOf(CacheEntryListenerConfiguration<K, V> other) {
        return configuration.equals(other);
    }

    boolean isSynchronous() {
        return configuration.isSynchronous();
    }

    /** Tells events in their order, those of one kind that follow each other together. */
    void tell(List<Event<K, V>> events) {
        try {
            List<CacheEntryEvent<? extends K, ? extends V>> alike = new ArrayList<>();
            for (Event<K, V> each : events) {
                Event<K, V> event = configuration.isOldValueRequired() ? each : each.withoutOldValue();
                if (!wants(event.getEventType()) || filter != null && !filter.evaluate(event)) {
                    continue;
                }
                if (!alike.isEmpty() && alike.get(0).getEventType() != event.getEventType()) {
                    fire(alike);
                    alike = new ArrayList<>();
                }
                alike.add(event);
            }
            if (!alike.isEmpty()) {
                fire(alike);
            }
        } catch (CacheEntryListenerException e) {
            throw e;
        } catch (RuntimeException | Error e) {
            throw new CacheEntryListenerException(e);
        }
    }

    private boolean wants(EventType type) {
        return switch (type) {
            case CREATED -> listener instanceof CacheEntryCreatedListener;
            case UPDATED -> listener instanceof CacheEntryUpdatedListener;
            case REMOVED -> listener instanceof CacheEntryRemovedListener;
            case EXPIRED -> listener instanceof CacheEntryExpiredListener;
        };
    }

    @SuppressWarnings("unchecked")
    private void fire(List<CacheEntryEvent<? extends K, ? extends V>> events) {
        Iterable<CacheEntryEvent<? extends K, ? extends V>> all = events;
        switch (events.get(0).getEventType()) {
            case CREATED -> ((CacheEntryCreatedListener<K, V>) listener).onCreated(all);
            case UPDATED -> ((CacheEntryUpdatedListener<K, V>) listener).onUpdated(all);
            case REMOVED -> ((CacheEntryRemovedListener<K, V>) listener).onRemoved(all);
            case EXPIRED -> ((CacheEntryExpiredListener<K, V>) listener).onExpired(all);
        }
    }

    void close() {
        Closing.close(listener);
        Closing.close(filter);
    }
}
