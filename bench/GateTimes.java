import java.net.URL;
import java.net.URLClassLoader;
import java.nio.file.Files;
import java.nio.file.Path;
import java.util.ArrayList;
import java.util.Arrays;
import java.util.List;
import java.util.TreeMap;
import java.util.jar.JarFile;

/**
 * Times the clients of examples/java: {@code GateTimes PROGRAM CLASS KNOWN..} prints how long a verdict on a class takes among known ones; with a jar in
 * place of a class how long all of its classes take to be loaded, by a plain loader and by one with a gate, by turns. See bench/serve.
 */
public final class GateTimes {
    private static final int ROUNDS = 7, MOST = 20_000;
    private static final long NANOSECONDS = 1_000_000_000;

    private static void roundTrips(String program, Path file, List<Path> known) throws Exception {
        byte[] data = Files.readAllBytes(file);
        try (var gate = Gate.start(program)) {
            for (Path it : known) {
                gate.known(Files.readAllBytes(it));
            }
            measured(gate, data);
            long[] times = measured(gate, data);
            System.out.printf("%d bytes, %d known: %.1f us, the fastest of twenty %.1f%n", data.length, known.size(), times[times.length / 2] / 1e3, times[times.length / 20] / 1e3);
        }
    }

    /** The times of verdicts within a second, the shortest first. */
    private static long[] measured(Gate gate, byte[] data) {
        long[] times = new long[MOST];
        int count = 0;
        for (long end = System.nanoTime() + NANOSECONDS; count < MOST && System.nanoTime() < end; count++) {
            long start = System.nanoTime();
            gate.judge(data);
            times[count] = System.nanoTime() - start;
        }
        long[] found = Arrays.copyOf(times, count);
        Arrays.sort(found);
        return found;
    }

    /** The milliseconds in which a loader loads all of these, and how many it refuses. */
    private static double load(URLClassLoader loader, List<String> names) throws Exception {
        long start = System.nanoTime();
        var refused = new TreeMap<String, Integer>();
        for (String it : names) {
            try {
                Class.forName(it, false, loader);
            } catch (LinkageError why) {
                refused.merge(why.getClass().getSimpleName(), 1, Integer::sum);
            }
        }
        double milliseconds = (System.nanoTime() - start) / 1e6;
        loader.close();
        if (!refused.isEmpty()) {
            System.out.println("not loaded: " + refused);
        }
        return milliseconds;
    }

    private static void loaders(String program, Path jar) throws Exception {
        List<String> names;
        try (var it = new JarFile(jar.toFile())) {
            names = it.stream().map(entry -> entry.getName()).filter(name -> name.endsWith(".class") && !name.contains("-")).map(name -> name.substring(0, name.length() - 6).replace('/', '.')).toList();
        }
        var urls = new URL[] {jar.toUri().toURL()};
        var parent = ClassLoader.getPlatformClassLoader();
        var plain = new ArrayList<Double>();
        var gated = new ArrayList<Double>();
        for (int round = 0; round < ROUNDS; round++) {
            plain.add(load(new URLClassLoader(urls, parent), names));
            gated.add(load(new GateLoader(Gate.start(program), urls, parent), names));
        }
        System.out.printf("%d classes: at first %.0f ms, with a gate %.0f ms; the least of %d rounds %.0f and %.0f ms%n", names.size(), plain.get(0), gated.get(0), ROUNDS,
            plain.stream().min(Double::compare).get(), gated.stream().min(Double::compare).get());
    }

    public static void main(String[] words) throws Exception {
        Path file = Path.of(words[1]);
        if (words[1].endsWith(".jar")) {
            loaders(words[0], file);
        } else {
            roundTrips(words[0], file, Arrays.stream(words).skip(2).map(Path::of).toList());
        }
    }
}
