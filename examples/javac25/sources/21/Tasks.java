import java.io.Serializable;
import java.util.ArrayList;
import java.util.List;
import java.util.concurrent.Callable;
import java.util.concurrent.locks.ReentrantLock;
import java.util.function.BiFunction;
import java.util.function.Function;
import java.util.function.IntFunction;
import java.util.function.Supplier;

/** Lambdas as a virtual thread runs them, and references to methods of each kind. */
public class Tasks extends ArrayList<String> {
    private final ReentrantLock lock = new ReentrantLock();
    private volatile long done;

    Thread started(String name, int count, double each) {
        return Thread.ofVirtual().name(name).start(() -> {
            for (int i = 0; i < count; i++) {
                lock.lock();
                try {
                    done += (long) (each * i);
                } finally {
                    lock.unlock();
                }
            }
        });
    }

    <R> R within(Callable<? extends R> task) {
        try {
            return task.call();
        } catch (RuntimeException e) {
            throw e;
        } catch (Exception e) {
            throw new IllegalStateException(e);
        }
    }

    List<Function<String, ?>> references(Tasks other) {
        IntFunction<int[][]> grids = int[][]::new;
        Supplier<Tasks> made = Tasks::new;
        BiFunction<Tasks, String, Boolean> added = Tasks::add;
        Function<String, Boolean> own = super::add;
        Runnable task = (Runnable & Serializable) () -> other.clear();
        task.run();
        added.apply(made.get(), "x");
        return List.of(Integer::parseInt, own, text -> grids.apply(text.length()), StringBuilder::new, String::trim);
    }

    static <T> Function<T, Supplier<Function<T, T>>> nested(T first, long by) {
        return second -> () -> third -> by > 0 ? first : by == 0 ? second : third;
    }

    long doneBy(long[] steps) {
        class Counter {
            long left = done;

            Runnable next() {
                return () -> {
                    left -= steps.length;
                    done++;
                };
            }
        }
        Counter counter = new Counter();
        counter.next().run();
        return counter.left;
    }
}
