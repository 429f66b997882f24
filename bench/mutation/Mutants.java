import java.io.BufferedReader;
import java.io.IOException;
import java.io.InputStreamReader;
import java.net.URL;
import java.net.URLClassLoader;
import java.nio.file.Files;
import java.nio.file.Path;
import java.util.HashMap;
import java.util.Map;

/**
 * Defines and links the classes in the files that standard input names, without running them, and says how each is
 * judged: see bench/mutants. A line is a folder of the classes that the class may refer to, whose loader defines it,
 * and the path of its file; the answer is `ok`, or the name of the error and its message, on one line.
 * Beside it: damaged.py and damaged_form.py change the code and the form of classes, short_methods.py makes some.
 */
public class Mutants {
    private static class Loader extends URLClassLoader {
        Loader(URL place) {
            super(new URL[] {place});
        }

        Class<?> define(byte[] data) {
            return defineClass(null, data, 0, data.length);
        }
    }

    /** Links a class, and so verifies it, without initializing it. */
    private static void link(Class<?> one) {
        try {
            one.getDeclaredMethods();
        } catch (NoClassDefFoundError e) {
            // a class that is missing for the verifier, and not for the types of the methods, is missing here as well
            one.getDeclaredFields();
        }
    }

    private static String answer(Loader loader, Path file) throws IOException {
        try {
            link(loader.define(Files.readAllBytes(file)));
            return "ok";
        } catch (LinkageError | RuntimeException e) {
            return e.getClass().getSimpleName() + " " + String.valueOf(e.getMessage()).replace("\n", "\\n");
        }
    }

    public static void main(String[] words) throws IOException {
        Map<String, Loader> loaders = new HashMap<>();
        BufferedReader lines = new BufferedReader(new InputStreamReader(System.in));
        for (String line = lines.readLine(); line != null; line = lines.readLine()) {
            String[] parts = line.split(" ", 2);
            if (!loaders.containsKey(parts[0])) {
                loaders.put(parts[0], new Loader(Path.of(parts[0]).toUri().toURL()));
            }
            System.out.println(answer(loaders.get(parts[0]), Path.of(parts[1])));
        }
    }
}
