import java.util.ArrayList;
import java.util.List;
import java.util.function.IntSupplier;
import java.util.function.IntUnaryOperator;

/** Code in front of the constructor's call: checks, loops, handlers, switches, lambdas, classes, and fields that are set. The other sources beside it: Modules, an import of a module; Started, a file without a class; Unnamed, patterns and variables without a name. */
public class Early {
    private final int size;
    protected String name;

    Early(int size, String name) {
        this.size = size;
        this.name = name;
    }

    static class Checked extends Early {
        private final long limit;

        Checked(int size, long limit) {
            if (size < 0 || limit > 1L << 40) {
                throw new IllegalArgumentException("size " + size);
            }
            this.limit = limit;
            super(size, "checked");
        }

        Checked(String text) {
            int size;
            try {
                size = Integer.parseInt(text);
            } catch (NumberFormatException e) {
                size = text.length();
            } finally {
                text = text.trim();
            }
            this(size, text.length());
        }

        Checked(List<?> parts) {
            long sum = 0;
            for (Object part : parts) {
                if (part == null) {
                    continue;
                }
                sum += part.hashCode();
            }
            while (sum > 100) {
                sum /= 2;
            }
            this((int) sum, sum);
        }
    }

    static class Chosen extends Early {
        final double[] parts;
        final Object kept;

        Chosen(Object any, double... more) {
            String name = switch (any) {
                case String s when !s.isEmpty() -> s;
                case Integer i -> "number " + i;
                case null, default -> "other";
            };
            parts = more.length > 1 ? more : new double[] {0, 1};
            this.kept = any;
            super(name.length(), name);
        }

        Chosen(int count) {
            IntUnaryOperator next = x -> x * 31 + count;
            record Pair(int a, int b) {
                int sum() {
                    return a + b;
                }
            }
            class Held {
                final int most = next.applyAsInt(count);

                IntSupplier largest() {
                    return () -> Math.max(most, count);
                }
            }
            var pair = new Pair(next.applyAsInt(1), new Held().largest().getAsInt());
            this(pair.sum() > 9 ? pair : (Object) "few", count, count * 2.0);
        }

        Chosen(Object lock, List<String> names) {
            List<String> made = new ArrayList<>();
            synchronized (lock) {
                for (int i = 0; i < names.size(); i++) {
                    made.add(names.get(i));
                }
            }
            try (var one = new Modules.Kept(made)) {
                kept = one;
            }
            parts = null;
            super(made.size(), String.join(", ", made));
        }
    }

    /** An inner class that uses the class around it in front of its call, and an enum and a record with such constructors. */
    class Inner extends Early {
        final int own;

        Inner(int more) {
            int outer = Early.this.size;
            own = outer + more;
            super(outer > 3 ? outer : more, Early.this.name);
        }
    }

    enum Level {
        LOW(1), HIGH("high");

        final int number;

        Level(int number) {
            this.number = number;
        }

        Level(String text) {
            var sum = 0;
            for (char c : text.toCharArray()) {
                sum += c;
            }
            this(sum);
        }
    }

    record Span(int from, int to) {
        Span(int one) {
            if (one < 0) {
                one = -one;
            }
            this(0, one);
        }
    }
}
