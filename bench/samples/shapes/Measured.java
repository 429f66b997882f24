package shapes;

/** An interface with a default and a static method: see bench/mutants. */
public interface Measured {
    int LIMIT = 12;

    double measure(int[] values, String unit);

    default float half(float value) {
        return value / 2;
    }

    static Measured none() {
        return null;
    }
}
