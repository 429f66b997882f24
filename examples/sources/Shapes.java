import java.util.ArrayList;
import java.util.Iterator;
import java.util.List;

/** Inner classes of every kind, interfaces, an enum and generics. */
public class Shapes {
    interface Shape {
        double UNIT = 1.0;

        double area();
    }

    enum Colour {
        RED,
        GREEN {
            @Override
            String sign() {
                return "go";
            }
        };

        String sign() {
            return name().toLowerCase();
        }
    }

    static class Square implements Shape {
        private final double side;

        Square(double side) {
            this.side = side;
        }

        @Override
        public double area() {
            return side * side;
        }
    }

    class Painted<T extends Shape> implements Shape {
        final T shape;
        Colour colour = Colour.RED;

        Painted(T shape) {
            this.shape = shape;
            painted.add(this);
        }

        @Override
        public double area() {
            return shape.area();
        }
    }

    private final List<Shape> painted = new ArrayList<Shape>();

    static <A extends Comparable<? super A>> A largest(Iterable<? extends A> all) {
        Iterator<? extends A> rest = all.iterator();
        A most = rest.next();
        while (rest.hasNext()) {
            A one = rest.next();
            if (one.compareTo(most) > 0) {
                most = one;
            }
        }
        return most;
    }

    double total() {
        double sum = 0;
        for (Shape shape : painted) {
            sum += shape.area();
        }
        return sum;
    }

    Shape doubled(final Shape shape) {
        class Local implements Shape {
            @Override
            public double area() {
                return 2 * shape.area() * UNIT;
            }
        }
        final Shape local = new Local();
        return new Shape() {
            @Override
            public double area() {
                return local.area();
            }
        };
    }
}
