/** Numbers without branches: each method's verdict is `verified`. */
class Sums {
    static int mean(int a, int b) {
        return (a + b) / 2;
    }

    static long mixed(int a, long b, int c) {
        long product = a * b;
        long shifted = product << c;
        return shifted ^ -product;
    }

    static double area(double radius, float scale) {
        double square = radius * radius;
        return square * 3.14159 * scale;
    }

    static void nothing(Object ignored, int[] unused) {
    }

    static short narrowed(long wide) {
        int lower = (int) wide;
        lower += 300;
        return (short) lower;
    }
}
