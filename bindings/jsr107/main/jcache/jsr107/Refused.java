package jcache.jsr107;

import javax.cache.CacheException;

/** What the library refuses. Nothing has changed. */
public final class Refused extends CacheException {
    private static final long serialVersionUID = 1;
    private final int status;

    /** @param status one of the refusals of jcache.h */
    public Refused(int status) {
        super(text(status));
        this.status = status;
    }

    private static String text(int status) {
        return switch (status) {
            case Native.OUT_OF_MEMORY -> "native memory is refused";
            case Native.BAD_CAPACITY -> "a part of a cache has 1 to 65,536 entries";
            default -> "refused with status " + status + " of jcache.h";
        };
    }

    /** The status of jcache.h. */
    public int status() {
        return status;
    }
}
