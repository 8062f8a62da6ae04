package jcache.jsr107;

/**
 * What a cache takes outside of Java's heap. Registered with the statistics, as
 * {@code javax.cache:type=CacheMemory,CacheManager=..,Cache=..}.
 */
public interface CacheMemoryMXBean {
    /** Entries, expired ones that no call has met among them. */
    long getRows();

    /** The most entries that the cache keeps. */
    long getCapacity();

    /** Bytes of native memory that the cache has allocated. */
    long getBytes();

    /** Values that were not stored for their size (the property {@code jcache.oversize}). */
    long getSkippedValues();
}
