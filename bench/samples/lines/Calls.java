package lines;

import java.util.Collections;
import java.util.Comparator;
import java.util.List;
import java.util.Map;
import java.util.function.Function;
import java.util.function.IntBinaryOperator;
import java.util.function.Supplier;

/** Lambdas, inner classes, strings that are joined, and calls of interfaces: see bench/mutants. */
public class Calls {
    enum Way { UP, DOWN }

    private final Map<String, List<Integer>> parts;
    private int seen;

    Calls(Map<String, List<Integer>> parts) {
        this.parts = parts;
    }

    class Inner implements Comparator<String> {
        final long from;

        Inner(long from) {
            this.from = from;
        }

        @Override
        public int compare(String a, String b) {
            seen++;
            return a.compareTo(b) + (int) from;
        }
    }

    static IntBinaryOperator operator(int by) {
        return (a, b) -> a * by + b;
    }

    Supplier<String> told(String name, double value, long count) {
        Function<Object, String> text = String::valueOf;
        return () -> name + value + count + text.apply(this) + seen;
    }

    int sum(String key, Way way) {
        int total = 0;
        for (Integer it : parts.getOrDefault(key, Collections.emptyList())) {
            total += way == Way.UP ? it : -it;
        }
        switch (way) {
            case UP:
                return total;
            case DOWN:
                return -total;
            default:
                throw new AssertionError(way);
        }
    }

    Comparator<String> order(boolean plain) {
        return plain ? new Inner(3L) : new Comparator<String>() {
            @Override
            public int compare(String a, String b) {
                return a.length() - b.length();
            }
        };
    }

    static Object[] cast(Object a, Comparable<?> b, Runnable[] c) {
        Object[] all = c;
        if (a instanceof Object[]) {
            all = (Object[]) a;
        } else if (a instanceof int[][]) {
            all = (int[][]) a;
        }
        all[0] = b;
        CharSequence text = b instanceof CharSequence ? (CharSequence) b : "none";
        return text.length() > 3 ? all.clone() : new Object[] {a, b, c, text.charAt(0), 4L, Calls.class};
    }
}
