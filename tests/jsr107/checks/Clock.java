package checks;

import java.util.function.LongSupplier;

/** The clock of the checks' caches, in milliseconds. */
public final class Clock implements LongSupplier {
    static volatile long now = 1_000_000;

    /** For the provider, by name. */
    public Clock() {}

    @Override
    public long getAsLong() {
        return now;
    }

    static void pass(long milliseconds) {
        now += milliseconds;
    }
}
