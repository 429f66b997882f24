import java.io.IOException;
import java.util.ArrayDeque;
import java.util.Deque;

/** Resources that are records, and what is closed when. */
public class Resources {
    record Handle(String name, Deque<String> log) implements AutoCloseable {
        Handle(String name) {
            this(name, new ArrayDeque<>());
        }

        @Override
        public void close() throws IOException {
            log.push(name);
            if (name.isEmpty()) {
                throw new IOException("no name");
            }
        }
    }

    private static final ThreadLocal<Handle> CURRENT = ThreadLocal.withInitial(() -> new Handle("first"));

    static int read(String name) throws IOException {
        try (Handle outer = new Handle(name); var inner = name.length() > 3 ? new Handle("i") : null) {
            if (outer.equals(inner)) {
                return 1;
            }
            return outer.hashCode();
        } catch (IllegalStateException | ArithmeticException e) {
            return e.getMessage() == null ? 0 : -1;
        } finally {
            CURRENT.remove();
        }
    }

    static long read(Iterable<?> all) {
        long sum = 0;
        outer:
        for (Object any : all) {
            if (!(any instanceof Handle(String name, Deque<String> log) && name != null)) {
                continue;
            }
            for (int i = 0; i < name.length(); i++) {
                if (name.charAt(i) == ' ') {
                    continue outer;
                } else if (log.size() > i) {
                    break outer;
                }
                sum += name.charAt(i);
            }
        }
        return sum;
    }

    static void close(Handle held) throws Exception {
        synchronized (held.log()) {
            try (held) {
                held.log().clear();
            } finally {
                held.log().push("closed");
            }
        }
    }
}
