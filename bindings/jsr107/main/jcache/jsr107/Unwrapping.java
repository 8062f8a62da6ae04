package jcache.jsr107;

/** What each `unwrap` of JSR 107 does here. */
final class Unwrapping {
    private Unwrapping() {}

    /** The object itself where it is of that type, else an IllegalArgumentException. */
    static <T> T unwrap(Object object, Class<T> type) {
        if (type.isInstance(object)) {
            return type.cast(object);
        }
        throw new IllegalArgumentException("not a " + type.getName());
    }
}
