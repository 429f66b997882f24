/** A field and a method of each kind. */
public abstract class Members implements Comparable<Members>, java.io.Serializable {
    private static final long serialVersionUID = 1L;

    public static final int ANSWER = 42;
    public static final float HALF = 0.5f;
    public static final double THIRD = 1.0 / 3.0;
    public static final String GREETING = "gr\u00fc\u00df dich, \u4e16\u754c \ud83d\ude00 \u0000";

    protected volatile boolean ready;
    transient char letter = 'x';
    private byte small = (byte) 200;
    short[] shorts = {1, -2, 300};
    long[][] grid = new long[3][4];
    Object anything;

    static int created;

    static {
        created = Integer.parseInt("0");
    }

    protected Members(Object anything) {
        this.anything = anything;
        created++;
    }

    abstract int size();

    public native int hashed();

    protected synchronized void locked(long by) {
        grid[0][0] += by;
        ready = !ready;
    }

    static strictfp double scaled(double value, int... factors) {
        for (int factor : factors) {
            value *= factor;
        }
        return value;
    }

    public final boolean isSmall() {
        return small < 0 && letter != 'y' && shorts.length > 2;
    }

    @Override
    public int compareTo(Members other) {
        return Integer.compare(size(), other.size());
    }

    @Deprecated
    public float old(float x) {
        return -x % 3f;
    }
}
