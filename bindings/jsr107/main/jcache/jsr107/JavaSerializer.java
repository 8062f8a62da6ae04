package jcache.jsr107;

import java.io.ByteArrayInputStream;
import java.io.ByteArrayOutputStream;
import java.io.IOException;
import java.io.ObjectInputFilter;
import java.io.ObjectInputStream;
import java.io.ObjectOutputStream;
import java.io.ObjectStreamClass;
import java.io.OutputStream;
import javax.cache.CacheException;

/** Java's serialization. A filter says which classes are written and read. */
final class JavaSerializer implements Serializer {
    private static final ObjectInputFilter VALUE_CLASSES = ObjectInputFilter.Config.createFilter(
            "java.lang.*;java.math.*;java.time.**;java.util.*");
    private final ObjectInputFilter filter;

    JavaSerializer(ObjectInputFilter filter) {
        this.filter = filter;
    }

    /** Allows the declared types, those below them, and the JDK's own value classes. */
    static ObjectInputFilter declared(Class<?>... types) {
        return info -> {
            Class<?> type = element(info.serialClass());
            if (type == null) {
                return ObjectInputFilter.Status.UNDECIDED;
            }
            for (Class<?> each : types) {
                if (each.isAssignableFrom(type)) {
                    return ObjectInputFilter.Status.ALLOWED;
                }
            }
            return VALUE_CLASSES.checkInput(new OfClass(type)) == ObjectInputFilter.Status.ALLOWED
                    || type.isPrimitive() ? ObjectInputFilter.Status.ALLOWED : ObjectInputFilter.Status.REJECTED;
        };
    }

    private static Class<?> element(Class<?> type) {
        Class<?> element = type;
        while (element != null && element.isArray()) {
            element = element.getComponentType();
        }
        return element;
    }

    /** A filter's question about a class alone. */
    private record OfClass(Class<?> serialClass) implements ObjectInputFilter.FilterInfo {
        @Override
        public long arrayLength() {
            return -1;
        }

        @Override
        public long depth() {
            return 1;
        }

        @Override
        public long references() {
            return 1;
        }

        @Override
        public long streamBytes() {
            return 1;
        }
    }

    /** Refuses what could not be read again. */
    private final class Filtered extends ObjectOutputStream {
        Filtered(OutputStream to) throws IOException {
            super(to);
        }

        @Override
        protected void annotateClass(Class<?> type) {
            if (filter.checkInput(new OfClass(type)) == ObjectInputFilter.Status.REJECTED) {
                throw new CacheException("the filter refuses the class " + type.getName()
                        + "; the property jcache.filter sets another");
            }
        }
    }

    @Override
    public byte[] write(Object object) throws IOException {
        ByteArrayOutputStream to = new ByteArrayOutputStream(256);
        try (ObjectOutputStream out = new Filtered(to)) {
            out.writeObject(object);
        }
        return to.toByteArray();
    }

    @Override
    public Object read(byte[] bytes, int from, ClassLoader classes) throws IOException, ClassNotFoundException {
        try (ObjectInputStream in = new ObjectInputStream(new ByteArrayInputStream(bytes, from, bytes.length - from)) {
            @Override
            protected Class<?> resolveClass(ObjectStreamClass of) throws IOException, ClassNotFoundException {
                try {
                    return Class.forName(of.getName(), false, classes);
                } catch (ClassNotFoundException e) {
                    return super.resolveClass(of);
                }
            }
        }) {
            in.setObjectInputFilter(filter);
            return in.readObject();
        }
    }
}
