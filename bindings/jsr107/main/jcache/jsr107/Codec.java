package jcache.jsr107;

import java.nio.ByteBuffer;
import java.nio.charset.StandardCharsets;
import java.util.Arrays;
import javax.cache.CacheException;

/**
 * Rows as bytes. A row has one byte that says what follows: the kind of its value, whether there is a moment
 * ({@link #MOMENT}) and whether there is a key ({@link #BESIDE}). Then the moment in 8 bytes, the key with its length in 4,
 * and the value. A payload is a value or key alone: a byte for its kind, then its bytes.
 */
final class Codec {
    /** A row that never expires by its own moment. */
    static final long NEVER = Long.MAX_VALUE;

    private static final int TEXT = 1;
    private static final int INTEGER = 2;
    private static final int LONG = 3;
    private static final int BYTES = 4;
    private static final int OBJECT = 5;
    private static final int CHARS = 6;
    private static final int KIND = 0x0F;
    private static final int BESIDE = 0x10;
    private static final int MOMENT = 0x20;

    private final Serializer serializer;
    private final ClassLoader classes;

    Codec(Serializer serializer, ClassLoader classes) {
        this.serializer = serializer;
        this.classes = classes;
    }

    /** A key or value as bytes. */
    byte[] payload(Object object) {
        if (object instanceof String text) {
            return text(text);
        }
        if (object instanceof Long number) {
            return ByteBuffer.allocate(9).put((byte) LONG).putLong(number).array();
        }
        if (object instanceof Integer number) {
            return ByteBuffer.allocate(5).put((byte) INTEGER).putInt(number).array();
        }
        if (object instanceof byte[] bytes) {
            return joined(BYTES, bytes);
        }
        try {
            return joined(OBJECT, serializer.write(object));
        } catch (CacheException e) {
            throw e;
        } catch (Exception e) {
            throw new CacheException("not to be serialized: " + object.getClass().getName() + ": " + e.getMessage(), e);
        }
    }

    @SuppressWarnings("deprecation")
    private static byte[] text(String text) {
        int length = text.length();
        for (int i = 0; i < length; i++) {
            if (text.charAt(i) >= 0x80) {
                return wideText(text);
            }
        }
        byte[] bytes = new byte[length + 1];
        bytes[0] = TEXT;
        text.getBytes(0, length, bytes, 1);
        return bytes;
    }

    /** UTF-8 where that gives the text back; a surrogate that stands alone has no UTF-8. */
    private static byte[] wideText(String text) {
        byte[] bytes = text.getBytes(StandardCharsets.UTF_8);
        return new String(bytes, StandardCharsets.UTF_8).equals(text) ? joined(TEXT, bytes)
                : joined(CHARS, chars(text));
    }

    private static byte[] chars(String text) {
        ByteBuffer bytes = ByteBuffer.allocate(2 * text.length());
        text.chars().forEach(c -> bytes.putChar((char) c));
        return bytes.array();
    }

    private static byte[] joined(int kind, byte[] bytes) {
        byte[] all = new byte[bytes.length + 1];
        all[0] = (byte) kind;
        System.arraycopy(bytes, 0, all, 1, bytes.length);
        return all;
    }

    /** The row of a value; `beside` is its key's payload or null, `moment` is read where `hasMoment` is true. */
    static byte[] row(byte[] payload, byte[] beside, boolean hasMoment, long moment) {
        if (beside == null && !hasMoment) {
            return payload;
        }
        int size = payload.length + (hasMoment ? 8 : 0) + (beside == null ? 0 : 4 + beside.length);
        ByteBuffer row = ByteBuffer.allocate(size);
        row.put((byte) (payload[0] | (hasMoment ? MOMENT : 0) | (beside == null ? 0 : BESIDE)));
        if (hasMoment) {
            row.putLong(moment);
        }
        if (beside != null) {
            row.putInt(beside.length).put(beside);
        }
        return row.put(payload, 1, payload.length - 1).array();
    }

    /** Whether a row is past its own moment. */
    static boolean isPast(byte[] row, long now) {
        return (row[0] & MOMENT) != 0 && momentOf(row) <= now;
    }

    /** The moment of its own that a row has. */
    static long momentOf(byte[] row) {
        return ByteBuffer.wrap(row).getLong(1);
    }

    static byte[] withMoment(byte[] row, long moment) {
        byte[] copy = row.clone();
        ByteBuffer.wrap(copy).putLong(1, moment);
        return copy;
    }

    private static int keyPlace(byte[] row) {
        return (row[0] & MOMENT) != 0 ? 9 : 1;
    }

    static boolean hasKey(byte[] row) {
        return (row[0] & BESIDE) != 0;
    }

    /** The key's payload that stands in a row. */
    static byte[] keyPayload(byte[] row) {
        int at = keyPlace(row);
        return Arrays.copyOfRange(row, at + 4, at + 4 + ByteBuffer.wrap(row).getInt(at));
    }

    /** Whether rows that stand at one text are of one key. */
    static boolean isOfSameKey(byte[] row, byte[] other) {
        return !hasKey(row) || Arrays.equals(keyPayload(row), keyPayload(other));
    }

    /** The value of a row. */
    Object value(byte[] row) {
        int at = keyPlace(row);
        if (hasKey(row)) {
            at += 4 + ByteBuffer.wrap(row).getInt(at);
        }
        return object(row[0] & KIND, row, at);
    }

    /** The object of a payload. */
    Object object(byte[] payload) {
        return object(payload[0], payload, 1);
    }

    private Object object(int kind, byte[] bytes, int at) {
        switch (kind) {
            case TEXT:
                return new String(bytes, at, bytes.length - at, StandardCharsets.UTF_8);
            case LONG:
                return ByteBuffer.wrap(bytes).getLong(at);
            case INTEGER:
                return ByteBuffer.wrap(bytes).getInt(at);
            case BYTES:
                return Arrays.copyOfRange(bytes, at, bytes.length);
            case CHARS:
                return ByteBuffer.wrap(bytes, at, bytes.length - at).asCharBuffer().toString();
            default:
                try {
                    return serializer.read(bytes, at, classes);
                } catch (Exception e) {
                    throw new CacheException("not to be read again: " + e.getMessage(), e);
                }
        }
    }
}
