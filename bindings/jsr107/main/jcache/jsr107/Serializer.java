package jcache.jsr107;

/**
 * Objects as bytes and back: values that are no String, Integer, Long or byte[], and keys that are no String, Integer, Long
 * or UUID. One of the user's own is named by the property {@code jcache.serializer}; it has a constructor without
 * parameters, and threads share it.
 */
public interface Serializer {
    /** The bytes of an object. What is thrown ends the call as a CacheException. */
    byte[] write(Object object) throws Exception;

    /** The object of bytes that {@link #write} gave, from place {@code from} to the end; classes are the manager's. */
    Object read(byte[] bytes, int from, ClassLoader classes) throws Exception;
}
