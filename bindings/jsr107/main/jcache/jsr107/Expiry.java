package jcache.jsr107;

import java.util.function.Supplier;
import javax.cache.expiry.AccessedExpiryPolicy;
import javax.cache.expiry.CreatedExpiryPolicy;
import javax.cache.expiry.Duration;
import javax.cache.expiry.EternalExpiryPolicy;
import javax.cache.expiry.ExpiryPolicy;
import javax.cache.expiry.ModifiedExpiryPolicy;
import javax.cache.expiry.TouchedExpiryPolicy;

/**
 * When entries expire: by one of the engine's five policies, or by a policy of the user's own. Such a one is asked, its
 * moment stands in the row, and to the engine all rows are eternal.
 */
final class Expiry {
    private final ExpiryPolicy own;
    private final int policy;
    private final long duration;

    private Expiry(ExpiryPolicy own, int policy, long duration) {
        this.own = own;
        this.policy = policy;
        this.duration = duration;
    }

    static Expiry of(ExpiryPolicy given) {
        Class<?> type = given.getClass();
        int policy = type == CreatedExpiryPolicy.class ? Native.CREATED
                : type == AccessedExpiryPolicy.class ? Native.ACCESSED
                : type == ModifiedExpiryPolicy.class ? Native.MODIFIED
                : type == TouchedExpiryPolicy.class ? Native.TOUCHED
                : Native.ETERNAL;
        if (policy == Native.ETERNAL) {
            return new Expiry(type == EternalExpiryPolicy.class ? null : given, policy, 0);
        }
        Duration duration = given.getExpiryForCreation();
        return duration.isEternal() ? new Expiry(null, Native.ETERNAL, 0) : new Expiry(null, policy, milliseconds(duration));
    }

    private static long milliseconds(Duration duration) {
        return duration.getTimeUnit().toMillis(duration.getDurationAmount());
    }

    int policy() {
        return policy;
    }

    /** In milliseconds. */
    long duration() {
        return duration;
    }

    /** Whether the policy is the user's own: then each of its moments is asked of it, with no lock held but the key's. */
    boolean isOwn() {
        return own != null;
    }

    /** The moment of a new entry. A policy that fails or says nothing makes it eternal. */
    long onCreation(long now) {
        Duration duration = asked(own::getExpiryForCreation);
        return duration == null ? Codec.NEVER : moment(duration, now);
    }

    /** The moment after an update or an access; null leaves it as it is, as does a policy that fails. */
    Long onUpdate(long now) {
        Duration duration = asked(own::getExpiryForUpdate);
        return duration == null ? null : (Long) moment(duration, now);
    }

    Long onAccess(long now) {
        Duration duration = asked(own::getExpiryForAccess);
        return duration == null ? null : (Long) moment(duration, now);
    }

    private static Duration asked(Supplier<Duration> question) {
        try {
            return question.get();
        } catch (RuntimeException e) {
            System.getLogger("jcache").log(System.Logger.Level.WARNING, "an expiry policy failed", e);
            return null;
        }
    }

    private static long moment(Duration duration, long now) {
        if (duration.isEternal()) {
            return Codec.NEVER;
        }
        long milliseconds = milliseconds(duration);
        return milliseconds > Codec.NEVER - now ? Codec.NEVER : now + milliseconds;
    }

    Object policyOfUser() {
        return own;
    }
}
