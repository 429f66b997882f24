import java.util.function.BinaryOperator;

/** A sealed hierarchy of generic records, and patterns within patterns. */
public sealed interface Trees<T> permits Trees.Leaf, Trees.Fork, Trees.Empty {
    record Leaf<T>(T value) implements Trees<T> {}

    record Fork<T>(Trees<T> left, Trees<T> right) implements Trees<T> {
        static int made;

        public Fork {
            made++;
            left = left == null ? new Empty<>() : left;
        }
    }

    /** A record of no components, and one of primitive and array components. */
    record Empty<T>() implements Trees<T> {}

    record Row<A, B>(A key, B value, int[] counts, long sum, float part) {}

    static <T> int size(Trees<T> tree) {
        return switch (tree) {
            case Fork<T>(Leaf<T>(var a), Leaf<T>(var b)) when a == b -> 1;
            case Fork<T>(Fork<T>(var a, var b), Leaf<T> c) -> size(a) + size(b) + size(c);
            case Fork<T>(var left, Empty<T>()) -> size(left);
            case Fork<T>(Trees<T> left, Trees<T> right) -> size(left) + size(right);
            case Leaf<T> leaf -> 1;
            case Empty<T> empty -> 0;
        };
    }

    static <T> T folded(Trees<T> tree, T none, BinaryOperator<T> joined) {
        if (tree instanceof Fork<T>(var left, Fork<T>(var middle, var right))) {
            T first = joined.apply(folded(left, none, joined), folded(middle, none, joined));
            return joined.apply(first, folded(right, none, joined));
        }
        if (!(tree instanceof Fork<T>(Trees<T> left, Trees<T> right))) {
            return tree instanceof Leaf<T>(T value) ? value : none;
        }
        return joined.apply(folded(left, none, joined), folded(right, none, joined));
    }

    static double told(Object any) {
        return switch (any) {
            case Row<?, ?>(Row<?, ?>(String key, Integer value, var counts, long sum, float part), var other, int[] own, var more, var last)
                when counts.length > 0 -> key.length() + value + counts[0] + sum + part + more + last;
            case Row<?, ?>(Leaf<?>(Leaf<?>(Character c)), Double d, int[] counts, long sum, float part) -> c + d + sum * part;
            case Row<?, ?> row when row.value() instanceof Row<?, ?>(CharSequence text, var rest, var c, var s, var p) -> text.length() + s;
            default -> Double.NEGATIVE_INFINITY;
        };
    }
}
