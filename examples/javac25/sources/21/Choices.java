import java.util.Locale;

/** Switches over patterns, enums and strings. The other sources beside it: Groups, enums and interfaces with bodies; Resources, records that are closed; Tasks, lambdas; Trees, records within generic records. */
public class Choices {
    sealed interface Token permits Mark, Word, Amount {}

    enum Mark implements Token { COMMA, STOP, DASH }

    record Word(String text) implements Token {}

    record Amount(long units, double rest) implements Token {}

    static String kind(Object any) {
        return switch (any) {
            case null -> "nothing";
            case Integer i when i > 1000 -> "a large int";
            case Integer i when i < 0 -> "a debt of " + -i;
            case Integer i -> "int " + i;
            case Long l -> "long " + l;
            case Character c when Character.isLetter(c) -> "letter " + c;
            case int[] numbers when numbers.length > 2 -> "numbers from " + numbers[0];
            case int[][] grid -> "a grid of " + grid.length;
            case String s when s.isBlank() -> "blank";
            case String s -> s.toLowerCase(Locale.ROOT);
            case Enum<?> e -> e.name();
            default -> any.getClass().getName();
        };
    }

    /** Constants with their enum's name beside patterns: javac gives the call site constants that are made at run time. */
    static int weight(Token token) {
        return switch (token) {
            case Mark.COMMA -> 1;
            case Mark.STOP -> 2;
            case Mark mark -> mark.ordinal() + 3;
            case Word(String text) when text.length() > 9 -> 10;
            case Word(var text) -> text.length();
            case Amount(long units, double rest) when rest == 0.0 -> (int) units;
            case Amount amount -> (int) Math.round(amount.units() + amount.rest());
        };
    }

    static void tell(CharSequence text, StringBuilder out) {
        switch (text) {
            case String s when s.startsWith("#"):
                out.append("comment");
                break;
            case null, default:
                out.append("other: ").append(text);
        }
    }

    static int days(String month, boolean leap) {
        int days = switch (month) {
            case "April", "June", "September", "November" -> 30;
            case "February" -> {
                if (leap) {
                    yield 29;
                }
                yield 28;
            }
            case "Aa", "BB" -> throw new IllegalArgumentException("of one hash: " + month);
            default -> 31;
        };
        return days;
    }

    static float factor(Mark mark) {
        float sum = 0;
        for (int i = 0; i < 3; i++) {
            sum += switch (mark) {
                case COMMA -> 0.5f;
                case STOP -> {
                    try {
                        yield Float.parseFloat("1e" + i);
                    } catch (NumberFormatException e) {
                        yield Float.NaN;
                    }
                }
                case DASH -> i;
            };
        }
        return sum;
    }

    static String joined(boolean z, byte b, char c, short s, int i, long l, float f, double d, Object o, int[] a) {
        String text = """
            z: "%s" \
            b: \t
            """ + z + b;
        text += c + "\1" + s + i;
        text += l + "\2" + f + d;
        return text + o + a[0] + null + 'x' + 1.5f;
    }
}
