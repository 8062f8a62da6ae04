package jcache.jsr107;

import java.nio.charset.StandardCharsets;
import java.security.MessageDigest;
import java.security.NoSuchAlgorithmException;
import java.util.Base64;
import java.util.UUID;

/**
 * Keys as the engine's texts of at most 63 bytes. A short String, an Integer, a Long and a UUID are their own: a letter and
 * the key. A long String goes by its digest and any other object by its hash code, each with a number behind it, for
 * several keys may share it; the key itself then stands in the row.
 */
final class Keys {
    private static final int MOST_BYTES = 63;

    private Keys() {}

    /** What keys that may meet each other share. */
    record Shared(String text) {
        byte[] place(int number) {
            return (text + "." + number).getBytes(StandardCharsets.ISO_8859_1);
        }
    }

    /** The text of a key that is its own, else null. */
    static byte[] own(Object key) {
        if (key instanceof String text) {
            return text.length() < MOST_BYTES ? ownText(text) : null;
        }
        if (key instanceof Long number) {
            return ("l" + number).getBytes(StandardCharsets.ISO_8859_1);
        }
        if (key instanceof Integer number) {
            return ("i" + number).getBytes(StandardCharsets.ISO_8859_1);
        }
        if (key instanceof UUID id) {
            return ("u" + id).getBytes(StandardCharsets.ISO_8859_1);
        }
        return null;
    }

    @SuppressWarnings("deprecation")
    private static byte[] ownText(String text) {
        int length = text.length();
        for (int i = 0; i < length; i++) {
            if (text.charAt(i) >= 0x80) {
                return ownWideText(text);
            }
        }
        byte[] bytes = new byte[length + 1];
        bytes[0] = 's';
        text.getBytes(0, length, bytes, 1);
        return bytes;
    }

    private static byte[] ownWideText(String text) {
        byte[] bytes = ("s" + text).getBytes(StandardCharsets.UTF_8);
        boolean isSame = new String(bytes, 1, bytes.length - 1, StandardCharsets.UTF_8).equals(text);
        return isSame && bytes.length <= MOST_BYTES ? bytes : null;
    }

    /** What a key that is not its own text shares with others. */
    static Shared shared(Object key) {
        return new Shared(key instanceof String text ? "d" + digest(text) : "o" + Integer.toHexString(key.hashCode()));
    }

    private static String digest(String text) {
        try {
            byte[] digest = MessageDigest.getInstance("SHA-256").digest(text.getBytes(StandardCharsets.UTF_16BE));
            return Base64.getUrlEncoder().withoutPadding().encodeToString(digest);
        } catch (NoSuchAlgorithmException e) {
            throw new IllegalStateException(e);
        }
    }

    /** The key that stands at a text, with its row. */
    static Object key(byte[] text, byte[] row, Codec codec) {
        if (Codec.hasKey(row)) {
            return codec.object(Codec.keyPayload(row));
        }
        String rest = new String(text, 1, text.length - 1, StandardCharsets.UTF_8);
        return switch (text[0]) {
            case 's' -> rest;
            case 'i' -> Integer.valueOf(rest);
            case 'l' -> Long.valueOf(rest);
            default -> UUID.fromString(rest);
        };
    }
}
