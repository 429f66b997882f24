import java.util.function.IntBinaryOperator;
import java.util.function.Supplier;

/** Enums and interfaces with bodies, and classes within methods. */
public interface Groups<T extends Comparable<T>> {
    enum Operation implements IntBinaryOperator {
        PLUS("+") {
            @Override
            public int applyAsInt(int a, int b) {
                return a + b;
            }
        },
        TIMES("*") {
            private int calls;

            @Override
            public int applyAsInt(int a, int b) {
                calls++;
                return a * b + 0 * calls;
            }
        };

        final String sign;

        Operation(String sign) {
            this.sign = sign;
        }

        enum Order { FIRST, SECOND }

        Order order() {
            return this == PLUS ? Order.FIRST : Order.SECOND;
        }
    }

    T first();

    default T larger(T other) {
        return isBelow(other) ? other : first();
    }

    private boolean isBelow(T other) {
        return compared(first(), other) < 0;
    }

    private static <S extends Comparable<S>> int compared(S a, S b) {
        return a == null || b == null ? 0 : a.compareTo(b);
    }

    static <S extends Comparable<S>> Groups<S> of(Supplier<S> made) {
        S held = made.get();
        return new Groups<>() {
            @Override
            public S first() {
                return held;
            }

            @Override
            public String toString() {
                return "of " + held;
            }
        };
    }

    /** A record, an enum and an interface that are declared in a method, and a class that captures its variables. */
    static int counted(int from, long by) {
        enum Step { UP, DOWN }
        interface Moved {
            int to(Step step);
        }
        record At(int place, Step step) implements Moved {
            At {
                if (place < 0) {
                    throw new IllegalStateException("below 0: " + place);
                }
            }

            @Override
            public int to(Step next) {
                return next == step ? place + 1 : place - 1;
            }
        }
        class Many implements Moved {
            @Override
            public int to(Step step) {
                return (int) (from + by) + new At(from, step).to(Step.DOWN);
            }
        }
        Moved moved = from > 3 ? new Many() : new At(from, Step.UP);
        return moved.to(Step.UP);
    }
}
