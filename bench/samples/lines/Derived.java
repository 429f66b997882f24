package lines;

import shapes.Base;
import shapes.Measured;

/** Protected members of another package, and constructors: see bench/mutants. */
public class Derived extends Base implements Measured, Runnable {
    private final Object lock;
    private int count;
    protected Derived next;

    public Derived(Object lock) {
        super(lock == null ? 1 : 2);
        this.lock = lock;
    }

    Derived(int a, long b, Derived next) {
        this(a > 3 ? new Object() : b < 4 ? "text" : new StringBuilder(a).append(b));
        this.next = next;
    }

    @Override
    public double measure(int[] values, String unit) {
        double sum = unit.length();
        for (int it : values) {
            sum += it;
        }
        return sum / size + scaled(weight) + super.grown(4L) + next.grown(count);
    }

    @Override
    public void run() {
        synchronized (lock) {
            count++;
            if (held instanceof Derived) {
                ((Derived) held).size = count;
                ((Derived) held).weight += 3;
            }
        }
    }

    @Override
    protected Object clone() throws CloneNotSupportedException {
        Derived copy = (Derived) super.clone();
        copy.size = size + 1;
        copy.next = next == null ? null : (Derived) next.clone();
        int[] numbers = super.numbers(3).clone();
        return numbers.length > 2 ? copy : this;
    }

    @Override
    public Derived self() {
        super.self();
        return next != null ? next.self() : this;
    }

    static Object nested(Measured one, Base two, int[] three) {
        Object made = new Derived(new Derived(three.length > 2 ? one : two));
        Measured other = one != null ? one : (Derived) made;
        return other.measure(three, word) > 2 ? other : two;
    }

    float both() {
        return half(2f) + Measured.super.half(3f);
    }
}
