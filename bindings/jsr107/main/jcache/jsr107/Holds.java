package jcache.jsr107;

import java.util.Collection;
import java.util.HashMap;
import java.util.Map;
import java.util.concurrent.locks.Condition;
import java.util.concurrent.locks.ReentrantLock;

/** Which threads hold which keys of a part; the part's lock is held at each call. */
final class Holds {
    private static final class Holder {
        private final Thread thread = Thread.currentThread();
        private int times;
    }

    private final Map<Object, Holder> holders = new HashMap<>();
    private final Condition released;

    Holds(ReentrantLock lock) {
        released = lock.newCondition();
    }

    boolean isEmpty() {
        return holders.isEmpty();
    }

    boolean has(Object name) {
        return holders.containsKey(name);
    }

    boolean isFree(Object name) {
        Holder holder = holders.get(name);
        return holder == null || holder.thread == Thread.currentThread();
    }

    /** Gives the lock up until a key is released. */
    void await() {
        released.awaitUninterruptibly();
    }

    void take(Collection<?> names) {
        names.forEach(name -> holders.computeIfAbsent(name, any -> new Holder()).times++);
    }

    void release(Collection<?> names) {
        for (Object name : names) {
            if (--holders.get(name).times == 0) {
                holders.remove(name);
            }
        }
        released.signalAll();
    }

    /** Wakes those that wait: the part is closed. */
    void wake() {
        released.signalAll();
    }
}
