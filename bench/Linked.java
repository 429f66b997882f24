import java.io.IOException;
import java.nio.file.Files;
import java.nio.file.Path;
import java.util.List;
import java.util.stream.Stream;

/**
 * Links all classes of a folder by the boot loader, without running any of them, and prints the counters of the virtual machine that
 * tell of verification, before and after: see bench/hotspot.
 */
public class Linked {
    private static void counters(String when) throws IOException {
        Process jcmd = new ProcessBuilder("jcmd", Long.toString(ProcessHandle.current().pid()), "PerfCounter.print").start();
        try (Stream<String> lines = jcmd.inputReader().lines()) {
            lines.filter(it -> it.startsWith("sun.cls.") || it.startsWith("sun.os.hrt.frequency")).forEach(it -> System.out.println(when + " " + it));
        }
    }

    private static String nameOf(Path folder, Path file) {
        String name = folder.relativize(file).toString().replace('/', '.');
        return name.substring(0, name.length() - ".class".length());
    }

    private static boolean isLinked(String name) {
        try {
            // a class is linked, and so verified, before its methods are told; it is not initialized
            Class.forName(name, false, null).getDeclaredMethods();
            return true;
        } catch (ReflectiveOperationException | LinkageError e) {
            return false;
        }
    }

    public static void main(String[] words) throws IOException {
        Path folder = Path.of(words[0]);
        List<String> names;
        try (Stream<Path> files = Files.walk(folder)) {
            names = files.filter(it -> it.toString().endsWith(".class") && !it.endsWith("module-info.class")).map(it -> nameOf(folder, it)).sorted().toList();
        }
        counters("before");
        long linked = names.stream().filter(Linked::isLinked).count();
        counters("after");
        System.out.println("linked " + linked + " of " + names.size());
    }
}
