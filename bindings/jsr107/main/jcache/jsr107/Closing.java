package jcache.jsr107;

import java.io.Closeable;
import java.io.IOException;

/** Closing what the user gave, where it is Closeable (JSR 107, Cache.close). */
final class Closing {
    private Closing() {}

    /** What is thrown is logged, for closing goes on. */
    static void close(Object given) {
        if (given instanceof Closeable closeable) {
            try {
                closeable.close();
            } catch (IOException | RuntimeException e) {
                System.getLogger("jcache").log(System.Logger.Level.WARNING, "not closed: " + given.getClass().getName(), e);
            }
        }
    }
}
