import java.io.ByteArrayInputStream;
import java.io.DataInputStream;
import java.io.IOException;
import java.io.InputStream;
import java.util.HashSet;
import java.util.LinkedHashSet;
import java.util.Map;
import java.util.Objects;
import java.util.Optional;
import java.util.Set;
import java.util.TreeMap;
import java.util.concurrent.ConcurrentHashMap;
import java.util.function.Function;
import java.util.regex.Pattern;

/**
 * The gate of one class loader: it judges the classes that the loader defines, and makes the classes known that a verdict misses, as
 * far as the loader finds their files. Any number of threads may ask.
 */
public final class LoaderGate implements AutoCloseable {
    /** What a class file says of its class: its name, that of its superclass or null, and whether it is an interface. */
    record Head(String name, String superclass, boolean isInterface) {
        private static final int INTERFACE = 0x0200;

        static Head of(byte[] file) throws IOException {
            var in = new DataInputStream(new ByteArrayInputStream(file));
            in.skipNBytes(8);
            var constants = new Object[in.readUnsignedShort()];
            for (int i = 1; i < constants.length; i++) {
                int tag = in.readUnsignedByte();
                switch (tag) {
                    case 1 -> constants[i] = in.readUTF();
                    case 7 -> constants[i] = in.readUnsignedShort();
                    case 8, 16, 19, 20 -> in.skipNBytes(2);
                    case 15 -> in.skipNBytes(3);
                    case 3, 4, 9, 10, 11, 12, 17, 18 -> in.skipNBytes(4);
                    case 5, 6 -> {
                        in.skipNBytes(8);
                        i++;
                    }
                    default -> throw new IOException("a constant of the kind " + tag);
                }
            }
            boolean isInterface = (in.readUnsignedShort() & INTERFACE) != 0;
            return new Head(name(constants, in.readUnsignedShort()), name(constants, in.readUnsignedShort()), isInterface);
        }

        private static String name(Object[] constants, int index) throws IOException {
            try {
                return index == 0 ? null : (String) constants[(Integer) constants[index]];
            } catch (ClassCastException | NullPointerException | IndexOutOfBoundsException wrong) {
                throw new IOException("no name of a class", wrong);
            }
        }
    }

    private static final String SUPER_MISSING = "hierarchy refused 42 ", MISSING = " missing ", KNOWN_ALREADY = "known refused 40";
    private static final Pattern ESCAPED = Pattern.compile("\\\\u([0-9a-f]{4})");

    private final Gate gate;
    private final Function<String, InputStream> resources;
    /** The classes that are known, by their names. */
    private final Map<String, Head> known = new ConcurrentHashMap<>();

    /** A gate whose known classes are of one loader alone; {@code resources} gives what that has of a name, or null. */
    public LoaderGate(Gate gate, Function<String, InputStream> resources) {
        this.gate = gate;
        this.resources = resources;
    }

    /** Why a class may not be defined by this name; nothing if it may, and then it is known to the next ones. */
    public Optional<String> refusal(String name, byte[] file) {
        if (file.length > Gate.MOST) {
            return Optional.of("it has more than " + Gate.MOST + " bytes");
        }
        Head head;
        try {
            head = Head.of(file);
        } catch (IOException noClass) {
            return Optional.of(gate.explain(file).text() + "it is no class file");
        }
        if (!head.name().equals(name)) {
            return Optional.of("it holds the class " + escaped(head.name()));
        }
        return refusal(head, file);
    }

    private Optional<String> refusal(Head head, byte[] file) {
        Set<String> tried = new HashSet<>();
        Map<String, String> absent = new TreeMap<>();
        while (true) {
            var answer = define(head, file);
            if (answer.status() == 0) {
                return known.get(head.name()).equals(head) ? Optional.empty() : Optional.of("another class of its name is known");
            }
            Set<String> missing = missing(answer.text(), head);
            missing.removeAll(tried);
            if (missing.isEmpty()) {
                // Another thread may have made a class known since.
                var told = gate.explain(file);
                if (told.status() != 0) {
                    return Optional.of(told.text() + told(absent));
                }
            }
            missing.forEach(it -> makeKnown(it, absent));
            tried.addAll(missing);
        }
    }

    /** The names of the classes that these lines miss. A name may hold blanks, so of a line all that may be one is taken. */
    private static Set<String> missing(String text, Head head) {
        var names = new LinkedHashSet<String>();
        text.lines().forEach(line -> {
            if (line.startsWith(SUPER_MISSING) && head.superclass() != null) {
                names.add(head.superclass());
            }
            for (int at = line.indexOf(MISSING); at >= 0; at = line.indexOf(MISSING, at + 1)) {
                names.add(unescaped(line.substring(at + MISSING.length())));
            }
        });
        return names;
    }

    /** Makes a class and those above it known, as far as they are found; the first that is not goes among the absent ones, with the reason. */
    private void makeKnown(String name, Map<String, String> absent) {
        var seen = new HashSet<String>();
        while (name != null && seen.add(name)) {
            Head head = known.get(name);
            if (head == null) {
                try {
                    head = send(name);
                } catch (IOException why) {
                    absent.put(name, Objects.requireNonNullElse(why.getMessage(), "its file is cut"));
                    return;
                }
            }
            name = head.superclass();
        }
    }

    /** Makes a class known. No lock is held while its file is read, since that is work of the loader. */
    private Head send(String name) throws IOException {
        byte[] file = read(name);
        Head head = Head.of(file);
        if (!head.name().equals(name)) {
            throw new IOException("its file holds the class " + escaped(head.name()));
        }
        return send(head, file);
    }

    private synchronized Head send(Head head, byte[] file) throws IOException {
        if (!known.containsKey(head.name())) {
            var answer = gate.known(file);
            if (answer.status() != 0 && !answer.text().startsWith(KNOWN_ALREADY)) {
                throw new IOException(answer.text().strip());
            }
            known.put(head.name(), head);
        }
        return known.get(head.name());
    }

    private synchronized Gate.Answer define(Head head, byte[] file) {
        var answer = gate.define(file);
        if (answer.status() == 0) {
            known.putIfAbsent(head.name(), head);
        }
        return answer;
    }

    private byte[] read(String name) throws IOException {
        try (InputStream in = resources.apply(name + ".class")) {
            if (in == null) {
                throw new IOException("it is in no place");
            }
            byte[] file = in.readNBytes(Gate.MOST + 1);
            if (file.length > Gate.MOST) {
                throw new IOException("its file has more than " + Gate.MOST + " bytes");
            }
            return file;
        }
    }

    private static String told(Map<String, String> absent) {
        var lines = new StringBuilder();
        absent.forEach((name, why) -> lines.append(escaped(name)).append(": ").append(why).append('\n'));
        return lines.toString();
    }

    /** A name as the program prints it. */
    static String escaped(String name) {
        var text = new StringBuilder();
        name.chars().forEach(it -> text.append(it < ' ' || it > '~' || it == '\\' ? String.format("\\u%04x", it) : (char) it));
        return text.toString();
    }

    private static String unescaped(String text) {
        return ESCAPED.matcher(text).replaceAll(it -> java.util.regex.Matcher.quoteReplacement(Character.toString(Integer.parseInt(it.group(1), 16))));
    }

    @Override
    public void close() {
        gate.close();
    }
}
