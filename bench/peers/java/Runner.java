import com.fasterxml.jackson.core.JsonFactory;
import com.fasterxml.jackson.core.JsonParser;
import com.fasterxml.jackson.core.JsonToken;
import com.fasterxml.jackson.core.io.JsonStringEncoder;
import java.io.FileDescriptor;
import java.io.FileOutputStream;
import java.io.IOException;
import java.io.OutputStream;
import java.nio.charset.StandardCharsets;
import java.nio.file.Files;
import java.nio.file.Path;
import java.util.ArrayList;
import java.util.HashMap;
import java.util.List;
import java.util.Map;

/**
 * The job over any cache of a JVM: a script's bytes in, the report's bytes out. All lines are read, by Jackson's
 * streaming reader, before the first call. {@code CONFIG SCRIPT}
 */
final class Runner {
    /** One cache of the peer. The counters that JCache wants are kept by the runner, but for evictions. */
    interface Store {
        String get(String key);

        boolean contains(String key);

        void put(String key, String value);

        boolean remove(String key);

        long evictions();
    }

    /** Makes the caches of one run. */
    interface Maker extends AutoCloseable {
        Store make(String name, int capacity);

        @Override
        void close();
    }

    interface Opener {
        Maker open();
    }

    enum Op { GET, CONTAINS, PUT, REMOVE, STATS }

    private static final int KEY_BYTES = 63;
    private static final int VALUE_BYTES = 65_535;

    record Config(String name, int capacity) {}

    record Call(int session, int cache, Op op, String key, String value) {}

    private static final Map<String, Op> OPS =
            Map.of("get", Op.GET, "contains", Op.CONTAINS, "put", Op.PUT, "remove", Op.REMOVE, "stats", Op.STATS);

    static final class Fault extends Exception {
        Fault(int line, String what) {
            super("script line " + line + ": " + what);
        }
    }

    /** Names and capacities: of the configuration the workloads use no more. */
    private static List<Config> configs(List<String> lines) {
        List<Config> found = new ArrayList<>();
        String name = "";
        for (String line : lines) {
            if (line.startsWith("name = ")) {
                name = line.substring(8, line.length() - 1);
            } else if (line.startsWith("capacity = ")) {
                found.add(new Config(name, Integer.parseInt(line.substring(11))));
            }
        }
        return found;
    }

    private static boolean isBlank(byte[] bytes, int from, int to) {
        for (int i = from; i < to; i++) {
            if (bytes[i] != ' ' && bytes[i] != '\t' && bytes[i] != '\r') {
                return false;
            }
        }
        return true;
    }

    private static int utf8Length(String text) {
        for (int i = 0; i < text.length(); i++) {
            if (text.charAt(i) >= 128) {
                return text.getBytes(StandardCharsets.UTF_8).length;
            }
        }
        return text.length();
    }

    private static Call call(JsonFactory json, byte[] bytes, int from, int to, Map<String, Integer> ids, int line)
            throws Fault {
        long session = -1;
        boolean timed = false;
        String cache = null;
        String name = null;
        String key = null;
        String value = null;
        try (JsonParser parser = json.createParser(bytes, from, to - from)) {
            if (parser.nextToken() != JsonToken.START_OBJECT) {
                throw new Fault(line, "not an object");
            }
            String member;
            while ((member = parser.nextFieldName()) != null) {
                JsonToken token = parser.nextToken();
                boolean isText = token == JsonToken.VALUE_STRING;
                switch (member) {
                    case "s" -> session = token == JsonToken.VALUE_NUMBER_INT ? parser.getLongValue() : -1;
                    case "at" -> timed =
                            token == JsonToken.VALUE_NUMBER_INT && parser.getBigIntegerValue().signum() >= 0;
                    case "c" -> cache = isText ? parser.getText() : null;
                    case "op" -> name = isText ? parser.getText() : null;
                    case "k" -> key = isText ? parser.getText() : null;
                    case "v" -> value = isText ? parser.getText() : null;
                    default -> parser.skipChildren();
                }
            }
        } catch (IOException fault) {
            throw new Fault(line, "not JSON");
        }
        if (session < 0 || session > 63) {
            throw new Fault(line, "bad s");
        }
        Integer id = cache == null ? null : ids.get(cache);
        if (id == null) {
            throw new Fault(line, "bad c");
        }
        if (!timed) {
            throw new Fault(line, "bad at");
        }
        Op op = name == null ? null : OPS.get(name);
        if (op == null) {
            throw new Fault(line, "bad op");
        }
        if (op != Op.STATS && (key == null || key.isEmpty() || utf8Length(key) > KEY_BYTES)) {
            throw new Fault(line, "bad k");
        }
        if (op == Op.PUT && (value == null || utf8Length(value) > VALUE_BYTES)) {
            throw new Fault(line, "bad v");
        }
        return new Call((int) session, id, op, key, value);
    }

    private static List<Call> read(byte[] bytes, Map<String, Integer> ids) throws Fault {
        JsonFactory json = new JsonFactory();
        List<Call> calls = new ArrayList<>();
        int line = 0;
        int from = 0;
        while (from <= bytes.length) {
            int to = from;
            while (to < bytes.length && bytes[to] != '\n') {
                to++;
            }
            line++;
            if (!isBlank(bytes, from, to)) {
                calls.add(call(json, bytes, from, to, ids, line));
            }
            from = to + 1;
        }
        return calls;
    }

    /** A cache, its counters and its part of the report. */
    private static final class Own {
        final Store store;
        final StringBuilder report = new StringBuilder();
        long hits;
        long misses;
        long puts;
        long removals;

        Own(Store store) {
            this.store = store;
        }

        void run(Call call) {
            report.append(call.session()).append(' ');
            switch (call.op()) {
                case GET -> {
                    String found = store.get(call.key());
                    if (found == null) {
                        misses++;
                        report.append("get none\n");
                    } else {
                        hits++;
                        report.append("get some \"");
                        JsonStringEncoder.getInstance().quoteAsString(found, report);
                        report.append("\"\n");
                    }
                }
                case CONTAINS -> report.append("contains ").append(store.contains(call.key())).append('\n');
                case PUT -> {
                    store.put(call.key(), call.value());
                    puts++;
                    report.append("put ok\n");
                }
                case REMOVE -> {
                    boolean gone = store.remove(call.key());
                    removals += gone ? 1 : 0;
                    report.append("remove ").append(gone).append('\n');
                }
                case STATS -> report.append("stats ").append(hits).append(' ').append(misses).append(' ').append(puts)
                        .append(' ').append(removals).append(' ').append(store.evictions()).append('\n');
            }
        }
    }

    /** Runs the script, and writes the report. */
    private static void job(List<Config> configs, byte[] bytes, Opener opener, OutputStream out)
            throws Fault, IOException {
        Map<String, Integer> ids = new HashMap<>();
        for (int i = 0; i < configs.size(); i++) {
            ids.put(configs.get(i).name(), i);
        }
        List<Call> calls = read(bytes, ids);
        List<Own> caches = new ArrayList<>();
        try (Maker maker = opener.open()) {
            for (Config config : configs) {
                caches.add(new Own(maker.make(config.name(), config.capacity())));
            }
            for (Call call : calls) {
                caches.get(call.cache()).run(call);
            }
        }
        for (int i = 0; i < configs.size(); i++) {
            out.write(("cache " + configs.get(i).name() + "\n").getBytes(StandardCharsets.UTF_8));
            out.write(caches.get(i).report.toString().getBytes(StandardCharsets.UTF_8));
        }
    }

    static void main(String[] words, Opener opener) throws IOException {
        List<Config> configs = configs(Files.readAllLines(Path.of(words[0])));
        byte[] bytes = Files.readAllBytes(Path.of(words[1]));
        try (OutputStream out = new FileOutputStream(FileDescriptor.out)) {
            job(configs, bytes, opener, out);
        } catch (Fault fault) {
            System.err.println(fault.getMessage());
            System.exit(1);
        }
    }
}
