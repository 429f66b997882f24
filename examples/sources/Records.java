/** A record, a pattern and a switch that is an expression: release 16. */
public record Records(int number, String... names) {
    public Records {
        if (number < 0) {
            throw new IllegalArgumentException("number " + number);
        }
    }

    static String told(Object any) {
        if (any instanceof Records records && records.number > 0) {
            return switch (records.number) {
                case 1, 2 -> "few";
                case 3 -> {
                    String text = records.toString();
                    yield text.isBlank() ? "none" : text;
                }
                default -> "many";
            };
        }
        return """
            no "record"
            """;
    }
}
