import java.net.URL;
import java.net.URLClassLoader;
import java.nio.file.Files;
import java.nio.file.Path;
import java.util.stream.Stream;

/** Links the classes in a folder, and so lets HotSpot verify them, without running any; prints how many, and each that fails. Beside it: classes, their sources and expected lines, and known classes with sources in library. */
public class Link {
    private static boolean isLinked(String name, ClassLoader loader) {
        try {
            Class.forName(name, false, loader).getDeclaredMethods();
            return true;
        } catch (ReflectiveOperationException | LinkageError e) {
            System.out.println(name + ": " + e);
            return false;
        }
    }

    public static void main(String[] words) throws Exception {
        Path folder = Path.of(words[0]);
        try (var loader = new URLClassLoader(new URL[] {folder.toUri().toURL()}); Stream<Path> files = Files.list(folder)) {
            Stream<String> names = files.map(it -> it.getFileName().toString().replace(".class", ""));
            System.out.println(names.sorted().filter(it -> isLinked(it, loader)).count() + " linked");
        }
    }
}
