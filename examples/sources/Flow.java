import java.io.IOException;
import java.io.StringReader;

/** Switches, loops, exceptions and work on strings. */
public class Flow {
    static class Trouble extends Exception {
        final int code;

        Trouble(String message, int code, Throwable cause) {
            super(message, cause);
            this.code = code;
        }
    }

    static int dense(int day) {
        switch (day) {
            case 1:
            case 7:
                return 0;
            case 2:
                return 5;
            case 3:
                day += 4;
            case 4:
                return day << 2;
            default:
                return -1;
        }
    }

    static String sparse(int code) {
        switch (code) {
            case -1000000:
                return "low";
            case 404:
                return "missing";
            case 2000000000:
                return "high";
            default:
                return "code " + code + ", " + (char) code + ", " + (code * 1.5f) + ", " + (long) code * code;
        }
    }

    static int named(String word) {
        switch (word) {
            case "one":
                return 1;
            case "two":
                return 2;
            case "Aa":
            case "BB":
                return 3;
            default:
                return word.length();
        }
    }

    static int read(String text) throws Trouble {
        StringReader reader = new StringReader(text);
        int sum = 0;
        try {
            int c;
            while ((c = reader.read()) != -1) {
                if (Character.isWhitespace(c)) {
                    continue;
                }
                sum = sum * 10 + Character.digit(c, 10);
            }
        } catch (IOException | IllegalStateException e) {
            throw new Trouble(text, sum, e);
        } finally {
            reader.close();
        }
        return sum;
    }

    static int counted(Object lock, int n) {
        int steps = 0;
        outer:
        for (int i = 0; i < n; i++) {
            for (int j = i; j-- > 0; ) {
                if ((i ^ j) % 3 == 1) {
                    continue outer;
                }
                if (steps > 1000) {
                    break outer;
                }
                steps += i >>> 1 | j & 7;
            }
        }
        synchronized (lock) {
            do {
                steps--;
            } while (steps > n);
        }
        return steps;
    }

    static String reversed(CharSequence text) {
        StringBuilder out = new StringBuilder(text.length());
        for (int i = text.length() - 1; i >= 0; i--) {
            out.append(text.charAt(i)).append(i % 2 == 0 ? "" : '-');
        }
        assert out.length() >= text.length() : "shorter";
        return out.toString().trim();
    }

    static Object cast(Object any) {
        if (any instanceof int[]) {
            return ((int[]) any).clone();
        }
        Class<?> type = any == null ? void.class : any.getClass();
        return new Object[][] {{type}, null};
    }
}
