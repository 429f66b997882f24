/** A method of a class that the file does not declare. */
String greeting(String... names) {
    return switch (names.length) {
        case 0 -> "Hello";
        case 1 -> "Hello, " + names[0];
        default -> {
            var text = new StringBuilder("Hello");
            for (var name : names) {
                text.append(", ").append(name);
            }
            yield text.toString();
        }
    };
}

int started = 1;

/// A comment in Markdown, in front of a main method that takes nothing.
void main() {
    IO.println(greeting("a", "b") + started++);
}
