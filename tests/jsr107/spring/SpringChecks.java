package checks;

import static checks.Check.holds;
import static checks.Check.same;

import java.io.Serializable;
import java.util.List;
import java.util.Set;
import java.util.concurrent.atomic.AtomicInteger;
import javax.cache.CacheManager;
import javax.cache.annotation.CacheKey;
import javax.cache.annotation.CachePut;
import javax.cache.annotation.CacheRemove;
import javax.cache.annotation.CacheRemoveAll;
import javax.cache.annotation.CacheResult;
import javax.cache.annotation.CacheValue;
import org.springframework.aop.framework.ProxyFactory;
import org.springframework.cache.Cache;
import org.springframework.cache.annotation.AnnotationCacheOperationSource;
import org.springframework.cache.annotation.CacheEvict;
import org.springframework.cache.annotation.Cacheable;
import org.springframework.cache.interceptor.BeanFactoryCacheOperationSourceAdvisor;
import org.springframework.cache.interceptor.CacheInterceptor;
import org.springframework.cache.jcache.JCacheCacheManager;
import org.springframework.cache.jcache.interceptor.BeanFactoryJCacheOperationSourceAdvisor;
import org.springframework.cache.jcache.interceptor.DefaultJCacheOperationSource;
import org.springframework.cache.jcache.interceptor.JCacheInterceptor;

/** Spring's clients of JSR 107: its cache manager, its interceptor, and the annotations of JSR 107. */
public final class SpringChecks {
    private SpringChecks() {}

    /** A value. */
    public record Book(String title) implements Serializable {}

    /** With Spring's annotations. */
    public interface Shelf {
        Book find(String title, int edition);

        Book none(String title);

        void drop(String title, int edition);
    }

    /** A shelf that counts its finds. */
    static final class CountingShelf implements Shelf {
        private final AtomicInteger finds = new AtomicInteger();

        @Override
        @Cacheable("books")
        public Book find(String title, int edition) {
            finds.incrementAndGet();
            return new Book(title + edition);
        }

        @Override
        @Cacheable("books")
        public Book none(String title) {
            finds.incrementAndGet();
            return null;
        }

        @Override
        @CacheEvict("books")
        public void drop(String title, int edition) {}
    }

    /** With the annotations of JSR 107. */
    public interface Rooms {
        String of(@CacheKey int number, String unused);

        String fails(int number);

        void set(int number, String name);

        void close(int number);

        void closeAll();
    }

    /** Rooms that count how often they are asked. */
    static final class CountingRooms implements Rooms {
        private final AtomicInteger asked = new AtomicInteger();

        @Override
        @CacheResult(cacheName = "rooms")
        public String of(@CacheKey int number, String unused) {
            asked.incrementAndGet();
            return "room " + number;
        }

        @Override
        @CacheResult(cacheName = "rooms", exceptionCacheName = "failures", cachedExceptions = IllegalStateException.class)
        public String fails(int number) {
            asked.incrementAndGet();
            throw new IllegalStateException("no room " + number);
        }

        @Override
        @CachePut(cacheName = "rooms")
        public void set(int number, @CacheValue String name) {}

        @Override
        @CacheRemove(cacheName = "rooms")
        public void close(int number) {}

        @Override
        @CacheRemoveAll(cacheName = "rooms")
        public void closeAll() {}
    }

    /** What is done with Spring's manager over caches of ours. */
    private interface Body {
        void run(JCacheCacheManager spring) throws Exception;
    }

    private static void on(String section, String what, Body body) {
        Check.that("Spring, " + section, what, () -> {
            try (CacheManager manager = Caches.manager()) {
                for (String name : List.of("books", "rooms", "failures")) {
                    manager.createCache(name, Caches.objects());
                }
                JCacheCacheManager spring = new JCacheCacheManager(manager);
                spring.afterPropertiesSet();
                body.run(spring);
            }
        });
    }

    public static void main(String[] words) {
        manager();
        interceptor();
        annotations();
        Check.end();
    }

    private static void manager() {
        on("JCacheCacheManager", "has the caches by name", spring -> {
            same(Set.of("books", "rooms", "failures"), Set.copyOf(spring.getCacheNames()));
            holds(spring.getCache("none") == null);
        });
        on("JCacheCacheManager", "put, get, evict, clear", spring -> {
            Cache cache = spring.getCache("books");
            cache.put("k", new Book("Emma"));
            same(new Book("Emma"), cache.get("k", Book.class));
            cache.evict("k");
            same(null, cache.get("k"));
            cache.put("k", 1);
            cache.clear();
            same(null, cache.get("k"));
        });
        on("JCacheCacheManager", "a stored null is not the want of an entry", spring -> {
            Cache cache = spring.getCache("books");
            cache.put("k", null);
            holds(cache.get("k") != null && cache.get("k").get() == null);
        });
        on("JCacheCacheManager", "putIfAbsent gives what is there", spring -> {
            Cache cache = spring.getCache("books");
            same(null, cache.putIfAbsent("k", 1));
            same(1, cache.putIfAbsent("k", 2).get());
        });
        on("JCacheCacheManager", "get with a loader calls it once", spring -> {
            Cache cache = spring.getCache("books");
            AtomicInteger calls = new AtomicInteger();
            for (int i = 0; i < 3; i++) {
                same("v", cache.get("k", () -> "v" + (calls.incrementAndGet() == 1 ? "" : "!")));
            }
            same(1, calls.get());
        });
    }

    private static Shelf shelf(CountingShelf target, JCacheCacheManager spring) {
        AnnotationCacheOperationSource source = new AnnotationCacheOperationSource();
        CacheInterceptor interceptor = new CacheInterceptor();
        interceptor.setCacheOperationSources(source);
        interceptor.setCacheManager(spring);
        interceptor.afterPropertiesSet();
        interceptor.afterSingletonsInstantiated();
        BeanFactoryCacheOperationSourceAdvisor advisor = new BeanFactoryCacheOperationSourceAdvisor();
        advisor.setCacheOperationSource(source);
        advisor.setAdvice(interceptor);
        ProxyFactory factory = new ProxyFactory(target);
        factory.addAdvisor(advisor);
        return (Shelf) factory.getProxy();
    }

    private static void interceptor() {
        on("CacheInterceptor", "@Cacheable with a key of two parameters calls once", spring -> {
            CountingShelf target = new CountingShelf();
            Shelf shelf = shelf(target, spring);
            same(new Book("Emma2"), shelf.find("Emma", 2));
            same(new Book("Emma2"), shelf.find("Emma", 2));
            same(new Book("Emma3"), shelf.find("Emma", 3));
            same(2, target.finds.get());
        });
        on("CacheInterceptor", "@CacheEvict drops the entry", spring -> {
            CountingShelf target = new CountingShelf();
            Shelf shelf = shelf(target, spring);
            shelf.find("Emma", 2);
            shelf.drop("Emma", 2);
            shelf.find("Emma", 2);
            same(2, target.finds.get());
        });
        on("CacheInterceptor", "a null is kept", spring -> {
            CountingShelf target = new CountingShelf();
            Shelf shelf = shelf(target, spring);
            holds(shelf.none("Emma") == null && shelf.none("Emma") == null);
            same(1, target.finds.get());
        });
    }

    private static Rooms rooms(CountingRooms target, JCacheCacheManager spring) throws Exception {
        DefaultJCacheOperationSource source = new DefaultJCacheOperationSource();
        source.setCacheManager(spring);
        source.afterPropertiesSet();
        JCacheInterceptor interceptor = new JCacheInterceptor();
        interceptor.setCacheOperationSource(source);
        interceptor.afterPropertiesSet();
        BeanFactoryJCacheOperationSourceAdvisor advisor = new BeanFactoryJCacheOperationSourceAdvisor();
        advisor.setCacheOperationSource(source);
        advisor.setAdvice(interceptor);
        ProxyFactory factory = new ProxyFactory(target);
        factory.addAdvisor(advisor);
        return (Rooms) factory.getProxy();
    }

    private static void annotations() {
        on("@CacheResult", "calls once for a key", spring -> {
            CountingRooms target = new CountingRooms();
            Rooms rooms = rooms(target, spring);
            same("room 1", rooms.of(1, "a"));
            same("room 1", rooms.of(1, "b"));
            same("room 2", rooms.of(2, "a"));
            same(2, target.asked.get());
        });
        on("@CacheResult", "an exception is kept", spring -> {
            CountingRooms target = new CountingRooms();
            Rooms rooms = rooms(target, spring);
            for (int i = 0; i < 2; i++) {
                same("no room 1", Check.thrown(IllegalStateException.class, () -> rooms.fails(1)).getMessage());
            }
            same(1, target.asked.get());
        });
        on("@CachePut, @CacheRemove, @CacheRemoveAll", "store and drop", spring -> {
            CountingRooms target = new CountingRooms();
            Rooms rooms = rooms(target, spring);
            rooms.set(1, "blue");
            same("blue", rooms.of(1, ""));
            rooms.close(1);
            same("room 1", rooms.of(1, ""));
            rooms.closeAll();
            same("room 1", rooms.of(1, ""));
            same(2, target.asked.get());
        });
    }
}
