package jcache.jsr107;

import java.io.ObjectInputFilter;
import java.util.Properties;
import java.util.function.LongSupplier;
import javax.cache.CacheException;

/**
 * What properties say of a cache. A property NAME is looked up as NAME.CACHE and NAME in the manager's properties, then so
 * in the system's.
 */
final class Settings {
    private static final int DEFAULT_CAPACITY = 10_000;
    private static final int MOST_PARTS = 64;
    private static final int MOST_BYTES = 65_535;

    private final Properties properties;
    private final ClassLoader classes;
    private final String cache;

    Settings(Properties properties, ClassLoader classes, String cache) {
        this.properties = properties;
        this.classes = classes;
        this.cache = cache;
    }

    private String property(String name) {
        for (Properties each : new Properties[] {properties, System.getProperties()}) {
            String said = each.getProperty(name + "." + cache, each.getProperty(name));
            if (said != null) {
                return said;
            }
        }
        return null;
    }

    private int number(String name, int otherwise, int most) {
        String said = property(name);
        if (said == null) {
            return otherwise;
        }
        try {
            int number = Integer.parseInt(said.trim());
            if (number >= 1 && number <= most) {
                return number;
            }
        } catch (NumberFormatException e) {
            throw new CacheException(name + " is no whole number: " + said, e);
        }
        throw new CacheException(name + " is from 1 to " + most + ", and not " + said);
    }

    /** Entries of the cache, in all its parts. */
    int capacity() {
        return number("jcache.capacity", DEFAULT_CAPACITY, MOST_PARTS * 65_536);
    }

    int parts() {
        return number("jcache.parts", 1, MOST_PARTS);
    }

    /** Entries of one part: each has its share. */
    int capacity(int part) {
        int capacity = capacity();
        int parts = parts();
        if (capacity < parts || capacity > parts * 65_536) {
            throw new CacheException("jcache.capacity is from 1 to 65,536 for each of jcache.parts, and not " + capacity
                    + " for " + parts);
        }
        return capacity / parts + (part < capacity % parts ? 1 : 0);
    }

    /** The most bytes of a value as it is stored. */
    int maxValue() {
        return number("jcache.max_value", MOST_BYTES, MOST_BYTES);
    }

    boolean skipsOversize() {
        String said = property("jcache.oversize");
        if (said == null || said.equals("refuse")) {
            return false;
        }
        if (said.equals("skip")) {
            return true;
        }
        throw new CacheException("jcache.oversize is refuse or skip, and not " + said);
    }

    /** Milliseconds. */
    LongSupplier clock() {
        String type = property("jcache.clock");
        return type == null ? wallClock() : made("jcache.clock", type, LongSupplier.class);
    }

    /** Milliseconds since 1970: the system's clock is read once, and one that nobody sets counts on. So it never falls. */
    private static LongSupplier wallClock() {
        long start = System.currentTimeMillis() * 1_000_000 - System.nanoTime();
        return () -> (start + System.nanoTime()) / 1_000_000;
    }

    Serializer serializer(Class<?> keys, Class<?> values) {
        String type = property("jcache.serializer");
        if (type != null) {
            return made("jcache.serializer", type, Serializer.class);
        }
        String pattern = property("jcache.filter");
        return new JavaSerializer(pattern == null ? JavaSerializer.declared(keys, values)
                : ObjectInputFilter.Config.createFilter(pattern));
    }

    private <T> T made(String name, String type, Class<T> as) {
        try {
            return as.cast(Class.forName(type, true, classes).getConstructor().newInstance());
        } catch (ReflectiveOperationException | ClassCastException e) {
            throw new CacheException(name + " is the class of a " + as.getSimpleName() + ", and not " + type, e);
        }
    }
}
