import java.io.IOException;
import java.io.PrintWriter;
import java.io.StringWriter;
import java.lang.management.ManagementFactory;
import java.nio.file.Files;
import java.nio.file.Path;
import java.util.ArrayList;
import java.util.List;
import java.util.stream.Stream;
import org.objectweb.asm.ClassReader;
import org.objectweb.asm.util.CheckClassAdapter;

/** Calls ASM's CheckClassAdapter.verify on each class of a folder, a number of times, and prints the processor time of each round: see bench/others. */
public class AsmCheck {
    private static String told(byte[] bytes, ClassLoader loader) {
        StringWriter text = new StringWriter();
        try {
            CheckClassAdapter.verify(new ClassReader(bytes), loader, false, new PrintWriter(text));
        } catch (RuntimeException | LinkageError e) {
            text.append(e.toString());
        }
        return text.toString();
    }

    public static void main(String[] words) throws IOException {
        List<byte[]> classes = new ArrayList<>();
        try (Stream<Path> files = Files.walk(Path.of(words[0]))) {
            for (Path it : files.filter(it -> it.toString().endsWith(".class") && !it.endsWith("module-info.class")).sorted().toList()) {
                classes.add(Files.readAllBytes(it));
            }
        }
        for (int round = 0; round < Integer.parseInt(words[1]); round++) {
            long start = ManagementFactory.getThreadMXBean().getCurrentThreadCpuTime();
            List<String> refused = classes.stream().map(it -> told(it, AsmCheck.class.getClassLoader())).filter(it -> !it.isEmpty()).toList();
            long end = ManagementFactory.getThreadMXBean().getCurrentThreadCpuTime();
            System.out.printf("ASM, round %d: %d classes, %d refused, %.3f s%n", round + 1, classes.size(), refused.size(), (end - start) / 1e9);
            refused.stream().limit(round == 0 ? 5 : 0).forEach(it -> System.out.println("  " + it.lines().findFirst().get()));
        }
    }
}
