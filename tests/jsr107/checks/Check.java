package checks;

import java.util.Objects;

/** Checks, a line each: the section of JSR 107 that says it, then what it says. */
final class Check {
    /** What a check does; it fails by throwing. */
    interface Body {
        void run() throws Exception;
    }

    private static int failures;

    private Check() {}

    static void that(String section, String what, Body body) {
        String name = "jsr107: " + section + ": " + what;
        try {
            body.run();
            System.out.println("ok: " + name);
        } catch (Exception | AssertionError e) {
            failures++;
            StackTraceElement[] trace = e.getStackTrace();
            StringBuilder where = new StringBuilder();
            for (int i = 0; i < trace.length && i < 6; i++) {
                where.append(" at ").append(trace[i]);
            }
            System.out.println("failed: " + name + ": " + e + where);
        }
    }

    static void holds(boolean condition) {
        if (!condition) {
            throw new AssertionError("does not hold");
        }
    }

    static void same(Object wanted, Object got) {
        if (!Objects.equals(wanted, got)) {
            throw new AssertionError("wanted " + wanted + ", got " + got);
        }
    }

    static <E extends Throwable> E thrown(Class<E> type, Body body) throws Exception {
        try {
            body.run();
        } catch (Throwable e) {
            if (type.isInstance(e)) {
                return type.cast(e);
            }
            throw new AssertionError("wanted " + type.getSimpleName() + ", got " + e, e);
        }
        throw new AssertionError("wanted " + type.getSimpleName() + ", nothing was thrown");
    }

    /** Ends the program: 1 where a check failed. */
    static void end() {
        System.exit(failures == 0 ? 0 : 1);
    }
}
