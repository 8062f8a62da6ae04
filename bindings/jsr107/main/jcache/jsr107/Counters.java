package jcache.jsr107;

import java.util.Arrays;
import java.util.concurrent.atomic.LongAdder;
import javax.cache.management.CacheStatisticsMXBean;

/** The statistics of a cache (JSR 107, Management). The engine counts always; what is told grows while they are enabled. */
final class Counters implements CacheStatisticsMXBean {
    /** What took time. */
    enum Kind { GET, PUT, REMOVE }

    private final Part[] parts;
    private final LongAdder[] nanoseconds = {new LongAdder(), new LongAdder(), new LongAdder()};
    private final long[] told = new long[Native.COUNTERS];
    private long[] since;
    private volatile boolean isEnabled;

    Counters(Part[] parts) {
        this.parts = parts;
    }

    boolean isEnabled() {
        return isEnabled;
    }

    synchronized void setEnabled(boolean enabled) {
        if (enabled && !isEnabled) {
            since = counted();
        } else if (!enabled && isEnabled) {
            System.arraycopy(sums(), 0, told, 0, told.length);
        }
        isEnabled = enabled;
    }

    private long[] counted() {
        long[] sums = new long[Native.COUNTERS];
        for (Part part : parts) {
            long[] counters = part.counters();
            for (int i = 0; i < sums.length; i++) {
                sums[i] += counters[i];
            }
        }
        return sums;
    }

    /** By the places of the counters. */
    synchronized long[] sums() {
        long[] sums = told.clone();
        if (isEnabled) {
            long[] now = counted();
            for (int i = 0; i < sums.length; i++) {
                sums[i] += now[i] - since[i];
            }
        }
        return sums;
    }

    /** The time at which a call begins, or 0 where no statistics are kept. */
    long begin() {
        return isEnabled ? System.nanoTime() : 0;
    }

    void end(Kind kind, long began) {
        if (began != 0) {
            nanoseconds[kind.ordinal()].add(System.nanoTime() - began);
        }
    }

    @Override
    public synchronized void clear() {
        Arrays.fill(told, 0);
        since = isEnabled ? counted() : since;
        for (LongAdder each : nanoseconds) {
            each.reset();
        }
    }

    @Override
    public long getCacheHits() {
        return sums()[Native.HITS];
    }

    @Override
    public long getCacheMisses() {
        return sums()[Native.MISSES];
    }

    @Override
    public long getCachePuts() {
        return sums()[Native.PUTS];
    }

    @Override
    public long getCacheRemovals() {
        return sums()[Native.REMOVALS];
    }

    @Override
    public long getCacheEvictions() {
        return sums()[Native.EVICTIONS];
    }

    @Override
    public long getCacheGets() {
        long[] sums = sums();
        return sums[Native.HITS] + sums[Native.MISSES];
    }

    @Override
    public float getCacheHitPercentage() {
        return percentage(Native.HITS);
    }

    @Override
    public float getCacheMissPercentage() {
        return percentage(Native.MISSES);
    }

    private float percentage(int which) {
        long[] sums = sums();
        long gets = sums[Native.HITS] + sums[Native.MISSES];
        return gets == 0 ? 0 : 100f * sums[which] / gets;
    }

    @Override
    public float getAverageGetTime() {
        return average(Kind.GET, getCacheGets());
    }

    @Override
    public float getAveragePutTime() {
        return average(Kind.PUT, getCachePuts());
    }

    @Override
    public float getAverageRemoveTime() {
        return average(Kind.REMOVE, getCacheRemovals());
    }

    /** Microseconds. */
    private float average(Kind kind, long times) {
        return times == 0 ? 0 : nanoseconds[kind.ordinal()].sum() / 1000f / times;
    }
}
