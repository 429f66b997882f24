package lines;

import java.io.ByteArrayInputStream;
import java.io.IOException;
import java.io.InputStream;
import java.util.ArrayList;
import java.util.Iterator;
import java.util.List;

/** Handlers of exceptions, nested and with finally, and frames at branches: see bench/mutants. */
public class Handlers<T extends Comparable<T>> {
    private List<T> items = new ArrayList<>();
    private volatile String last;

    int tried(String word) {
        int value = 0;
        try {
            value = Integer.parseInt(word);
            last = word;
        } catch (NumberFormatException | NullPointerException e) {
            last = e.getMessage();
            return -1;
        } finally {
            items = null;
        }
        return value;
    }

    static long read(byte[] data, long limit) throws IOException {
        long count = 0;
        try (InputStream in = new ByteArrayInputStream(data)) {
            for (int it = in.read(); it >= 0; it = in.read()) {
                try {
                    if (it == 3) {
                        throw new IllegalStateException("three");
                    }
                    count += it;
                } catch (IllegalStateException e) {
                    double weight = count;
                    count = (long) (weight / 2);
                    if (count > limit) {
                        break;
                    }
                } finally {
                    count++;
                }
            }
        }
        return count;
    }

    T greatest(Iterator<? extends T> all) {
        T best = null;
        while (all.hasNext()) {
            T it = all.next();
            if (best == null || it.compareTo(best) > 0) {
                best = it;
            }
        }
        return best;
    }

    Object either(Object a, Number b, int[] c) {
        Object found = a instanceof String ? a : b == null ? c : b;
        String text = found instanceof String ? (String) found : "none";
        for (; ; ) {
            try {
                synchronized (this) {
                    items.add(null);
                    return text.isEmpty() ? found : text;
                }
            } catch (RuntimeException e) {
                found = e;
            } catch (Error e) {
                Throwable cause = e.getCause();
                found = cause != null ? cause : e;
            }
            if (found == null) {
                return null;
            }
        }
    }

    static RuntimeException made(String text, Throwable cause) {
        return cause instanceof RuntimeException ? (RuntimeException) cause : new IllegalArgumentException(text, cause);
    }

    private static void thrown(boolean first) throws Exception {
        throw first ? new IOException("a" + first) : new Exception(first ? null : "b");
    }
}
