import java.io.File;
import java.io.IOException;
import java.net.URL;
import java.net.URLClassLoader;
import java.util.List;
import java.util.jar.JarFile;

/**
 * Links, and so verifies, each class of the first jar of a class path, without running any of them, and prints its name and what came of it.
 *
 * <p>In this folder are also `debian`, which judges the jars of debian.txt by the gate and by this program, with its last lines in debian.out; and `warm`, which
 * times a second call of the gate over a jar.
 */
public class LinkedJar {
    private static String linked(ClassLoader loader, String name) {
        try {
            // a class is linked before its methods are told; it is not initialized
            Class.forName(name, false, loader).getDeclaredMethods();
            return "linked";
        } catch (ClassNotFoundException | LinkageError e) {
            return e.getClass().getName() + " " + String.valueOf(e.getMessage()).lines().findFirst().orElse("");
        }
    }

    public static void main(String[] words) throws IOException {
        URL[] places = new URL[words.length];
        for (int i = 0; i < words.length; i++) {
            places[i] = new File(words[i]).toURI().toURL();
        }
        List<String> names;
        try (JarFile jar = new JarFile(words[0])) {
            names = jar.stream().map(it -> it.getName()).filter(it -> it.endsWith(".class") && !it.startsWith("META-INF/") && !it.endsWith("module-info.class")).toList();
        }
        try (URLClassLoader loader = new URLClassLoader(places, ClassLoader.getPlatformClassLoader())) {
            for (String it : names) {
                System.out.println(it + " " + linked(loader, it.substring(0, it.length() - ".class".length()).replace('/', '.')));
            }
        }
    }
}
