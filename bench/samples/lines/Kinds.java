package lines;

/** Numbers of all kinds, in local variables, fields and arrays: see bench/mutants. */
public class Kinds {
    boolean flag;
    byte small;
    char letter;
    short brief;
    int number;
    long wide;
    float rough;
    double fine;
    static boolean flags;
    static byte smalls;
    static char letters;
    static short briefs;
    final int kept;

    Kinds(int kept) {
        this.kept = kept;
        small = (byte) kept;
        flag = kept > 3;
    }

    Kinds(long wide) {
        this(wide > 9 ? 1 : (int) wide);
        this.wide = wide;
    }

    void set(boolean a, byte b, char c, short d, int e, long f, float g, double h) {
        flag = a;
        small = b;
        letter = c;
        brief = d;
        number = e;
        wide = f;
        rough = g;
        fine = h;
        flags = !a;
        smalls = (byte) (b + e);
        letters = (char) (c ^ d);
        briefs = (short) f;
    }

    static int arrays(boolean[] a, byte[] b, char[] c, short[] d, int[] e, long[] f, float[] g, double[] h) {
        a[0] = b[1] > 3;
        b[a.length] = (byte) c[2];
        c[d[1]] += 4;
        d[e[0]++] = (short) f[2];
        f[1] = f[0] + e[2] << 3;
        g[0] = f[1] > 4 ? (float) h[1] : g[2];
        h[0] = g[1] % 3;
        return a[1] ? b[0] : (int) h[2];
    }

    static long mixed(int count, long start) {
        long sum = start;
        double other = 1;
        for (int i = 0; i < count; i++) {
            int j = i * 3;
            long k = j + sum;
            if (k > 100L) {
                float f = k;
                other += f;
                continue;
            }
            sum ^= k >>> j;
        }
        return sum + (long) other;
    }

    static Object many(int a, int b) {
        int[][][] made = new int[a][b][];
        Object[][] others = new Object[a][];
        String[] words = {"a", "b"};
        others[0] = words;
        made[0][1] = new int[] {1, 2, 3};
        made[1] = new int[3][2];
        long[] longs = new long[] {4L, a};
        return a > b ? made : b > 4 ? others : longs;
    }

    static int chosen(int way, String word) {
        switch (way) {
            case 1:
            case 2:
                return 3;
            case 3:
                way++;
            case 4:
                break;
            default:
                way = -1;
        }
        switch (word) {
            case "one":
                return 1;
            case "two":
                return 2;
            default:
        }
        switch (way) {
            case -100000:
                return 7;
            case 900000:
                return 8;
            default:
                return way;
        }
    }
}
