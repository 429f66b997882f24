package shapes;

/** A class of another package, with protected members: see bench/mutants. */
public class Base implements Cloneable {
    protected int size;
    protected long weight;
    protected static String word = "w";
    public Object held;
    int ofPackage;

    protected Base(int size) {
        this.size = size;
    }

    protected Base() {
        this(1);
    }

    protected long grown(long by) {
        return weight + by;
    }

    protected static double scaled(double by) {
        return by * 2;
    }

    public Base self() {
        return this;
    }

    protected int[] numbers(int count) {
        return new int[count];
    }
}
