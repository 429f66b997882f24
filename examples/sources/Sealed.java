import java.lang.annotation.Retention;
import java.lang.annotation.RetentionPolicy;
import java.util.List;

/** A sealed interface, a sealed class, and records with signatures and annotations of their components: release 17. */
public sealed interface Sealed permits Sealed.Pair, Sealed.Nothing, Sealed.Shape {
    @Retention(RetentionPolicy.RUNTIME)
    @interface Checked {
        int value() default 1;
    }

    record Pair<A, B extends Comparable<B>>(@Checked A first, @Checked(2) List<? super B> others) implements Sealed {
        static final int SIZE = 2;
    }

    record Nothing() implements Sealed {}

    abstract sealed class Shape implements Sealed permits Square, Round {
        abstract double area();
    }

    final class Square extends Shape {
        private final double side;

        Square(double side) {
            this.side = side;
        }

        @Override
        double area() {
            return side * side;
        }
    }

    non-sealed class Round extends Shape {
        @Deprecated
        double radius;

        @Override
        double area() {
            return radius * radius * 3.0;
        }
    }

    static String told(Sealed any) throws IllegalStateException {
        if (any instanceof Pair<?, ?> pair) {
            return "a pair of " + pair.first();
        }
        if (any instanceof Shape shape && shape.area() > 1.0) {
            return "large";
        }
        throw new IllegalStateException();
    }
}
