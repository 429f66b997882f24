import java.util.Map;
import java.util.Queue;
import java.util.function.BiFunction;

/** Patterns and variables without a name. */
public class Unnamed {
    sealed interface Ball<T extends Comparable<T>> permits Red, Blue, Green {}

    record Red<T extends Comparable<T>>(T mark, Point at) implements Ball<T> {}

    record Blue<T extends Comparable<T>>(T mark, Point at) implements Ball<T> {}

    record Green<T extends Comparable<T>>(Box<? extends Ball<T>> inner) implements Ball<T> {}

    record Box<B>(B content, long weight) {}

    record Point(int x, int y) {}

    static int column(Ball<?> ball) {
        return switch (ball) {
            case Red<?>(_, Point(int x, _)) when x > 0 -> x;
            case Red<?> _, Blue<?> _ -> -1;
            case Green<?>(Box<?>(Blue<?>(_, Point(_, var y)), _)) -> y;
            case Green<?>(Box<?>(_, long weight)) -> (int) weight;
        };
    }

    static int counted(Iterable<?> all) {
        int count = 0;
        for (var _ : all) {
            count++;
        }
        return count;
    }

    static int parsed(String text) {
        try {
            return Integer.parseInt(text);
        } catch (NumberFormatException _) {
            return 0;
        }
    }

    static long polled(Queue<? extends Number> numbers) {
        long sum = 0;
        while (numbers.size() >= 3) {
            var a = numbers.remove();
            var b = numbers.remove();
            var _ = numbers.remove();
            sum += a.longValue() * b.intValue();
        }
        return sum;
    }

    static <K> void doubled(Map<K, Integer> counts, K key) {
        BiFunction<K, Integer, Integer> twice = (_, count) -> count == null ? 1 : 2 * count;
        counts.compute(key, twice);
        counts.computeIfAbsent(key, _ -> 0);
    }

    static boolean closed(AutoCloseable held) {
        try (var _ = held) {
            return true;
        } catch (RuntimeException | Error _) {
            return false;
        } catch (Exception _) {
            throw new IllegalStateException();
        }
    }
}
