package jcache.jsr107;

import java.nio.ByteBuffer;
import java.nio.ByteOrder;

/** All rows of a cache, part by part, several a crossing. A row that stays from begin to end is met once. */
final class Walk {
    private final Part[] parts;
    private int part;
    private int[] next = {0};
    private ByteBuffer rows = ByteBuffer.allocate(0);
    private Part from;
    private byte[] key;
    private byte[] row;

    Walk(Part[] parts) {
        this.parts = parts;
    }

    /** Goes to the next row that is live at a moment. False where there is none. */
    boolean advance(long now) {
        for (;;) {
            while (!rows.hasRemaining()) {
                if (part == parts.length) {
                    return false;
                }
                fetch();
            }
            if (read(now)) {
                return true;
            }
        }
    }

    private void fetch() {
        byte[] more = parts[part].walk(next[0], next);
        if (more == null) {
            part++;
            next[0] = 0;
        } else {
            from = parts[part];
            rows = ByteBuffer.wrap(more).order(ByteOrder.LITTLE_ENDIAN);
        }
    }

    /** Whether the row read is live; the engine's moments are without sign. */
    private boolean read(long now) {
        long moment = rows.getLong();
        key = new byte[rows.get()];
        row = new byte[Short.toUnsignedInt(rows.getShort())];
        rows.get(key).get(row);
        return Long.compareUnsigned(now, moment) < 0 && !Codec.isPast(row, now);
    }

    Part from() {
        return from;
    }

    byte[] key() {
        return key;
    }

    byte[] row() {
        return row;
    }
}
