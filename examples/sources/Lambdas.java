import java.util.function.Function;
import java.util.function.Supplier;

/** Lambdas, method references, and default and static methods of interfaces: from release 8 on. */
public class Lambdas {
    interface Named {
        String name();

        default String greeting() {
            return "Hello, " + name();
        }

        static Named of(String name) {
            return () -> name;
        }
    }

    static <A, B, C> Function<A, C> composed(Function<A, B> first, Function<? super B, ? extends C> second) {
        return a -> second.apply(first.apply(a));
    }

    Supplier<Integer> length(String text) {
        return text::length;
    }
}
