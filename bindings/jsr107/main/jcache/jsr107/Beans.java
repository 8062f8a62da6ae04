package jcache.jsr107;

import java.lang.management.ManagementFactory;
import javax.cache.CacheException;
import javax.cache.configuration.CompleteConfiguration;
import javax.cache.management.CacheMXBean;
import javax.management.JMException;
import javax.management.MBeanServer;
import javax.management.ObjectName;
import javax.management.StandardMBean;

/** The beans of one cache in the platform's server (JSR 107, Management). */
final class Beans {
    static final String STATISTICS = "CacheStatistics";
    static final String CONFIGURATION = "CacheConfiguration";
    static final String MEMORY = "CacheMemory";

    private final String manager;
    private final String cache;

    Beans(String manager, String cache) {
        this.manager = plain(manager);
        this.cache = plain(cache);
    }

    private static String plain(String text) {
        return text.replaceAll("[,:=\n\"*?]", ".");
    }

    private ObjectName name(String type) throws JMException {
        return new ObjectName("javax.cache:type=" + type + ",CacheManager=" + manager + ",Cache=" + cache);
    }

    /** Registers a bean in place of the one that is there; null only unregisters that. */
    <T> void set(String type, T bean, Class<T> as) {
        MBeanServer server = ManagementFactory.getPlatformMBeanServer();
        try {
            ObjectName name = name(type);
            if (server.isRegistered(name)) {
                server.unregisterMBean(name);
            }
            if (bean != null) {
                server.registerMBean(new StandardMBean(bean, as, true), name);
            }
        } catch (JMException e) {
            throw new CacheException(e);
        }
    }

    /** A configuration as its bean tells it. */
    record Configuration(CompleteConfiguration<?, ?> of) implements CacheMXBean {
        @Override
        public String getKeyType() {
            return of.getKeyType().getName();
        }

        @Override
        public String getValueType() {
            return of.getValueType().getName();
        }

        @Override
        public boolean isReadThrough() {
            return of.isReadThrough();
        }

        @Override
        public boolean isWriteThrough() {
            return of.isWriteThrough();
        }

        @Override
        public boolean isStoreByValue() {
            return of.isStoreByValue();
        }

        @Override
        public boolean isStatisticsEnabled() {
            return of.isStatisticsEnabled();
        }

        @Override
        public boolean isManagementEnabled() {
            return of.isManagementEnabled();
        }
    }

    /** A store as its bean tells it. */
    record Memory(Store<?, ?> of) implements CacheMemoryMXBean {
        @Override
        public long getRows() {
            long rows = 0;
            for (Part part : of.parts()) {
                rows += part.rows();
            }
            return rows;
        }

        @Override
        public long getCapacity() {
            long capacity = 0;
            for (Part part : of.parts()) {
                capacity += part.capacity();
            }
            return capacity;
        }

        @Override
        public long getBytes() {
            long bytes = 0;
            for (Part part : of.parts()) {
                bytes += part.bytes();
            }
            return bytes;
        }

        @Override
        public long getSkippedValues() {
            return of.skipped();
        }
    }
}
