import java.io.IOException;
import java.lang.management.ManagementFactory;
import java.nio.file.Files;
import java.nio.file.Path;
import java.util.ArrayList;
import java.util.List;
import java.util.Map;
import java.util.TreeMap;
import java.util.stream.Stream;
import org.apache.bcel.Repository;
import org.apache.bcel.classfile.ClassParser;
import org.apache.bcel.classfile.JavaClass;
import org.apache.bcel.verifier.VerificationResult;
import org.apache.bcel.verifier.Verifier;
import org.apache.bcel.verifier.VerifierFactory;

/** Calls all passes of BCEL's verifier on each class of a folder, and prints what it says and its processor time: see bench/others. */
public class BcelCheck {
    private static final Map<String, Integer> SAID = new TreeMap<>();

    private static boolean isWell(VerificationResult result, String pass) {
        boolean well = result.getStatus() == VerificationResult.VERIFIED_OK;
        if (!well) {
            SAID.merge(pass + ": " + result.getMessage().lines().findFirst().get().replaceAll("[0-9]+", "N"), 1, Integer::sum);
        }
        return well;
    }

    private static int wellMethods(String name) throws ClassNotFoundException {
        Verifier verifier = VerifierFactory.getVerifier(name);
        if (!isWell(verifier.doPass1(), "pass 1") || !isWell(verifier.doPass2(), "pass 2")) {
            return 0;
        }
        int well = 0;
        for (int i = 0; i < Repository.lookupClass(name).getMethods().length; i++) {
            if (isWell(verifier.doPass3a(i), "pass 3a") && isWell(verifier.doPass3b(i), "pass 3b")) {
                well++;
            }
        }
        return well;
    }

    public static void main(String[] words) throws IOException {
        List<JavaClass> classes = new ArrayList<>();
        try (Stream<Path> files = Files.walk(Path.of(words[0]))) {
            for (Path it : files.filter(it -> it.toString().endsWith(".class") && !it.endsWith("module-info.class")).sorted().toList()) {
                classes.add(new ClassParser(it.toString()).parse());
            }
        }
        classes.forEach(Repository::addClass);
        int methods = 0;
        int well = 0;
        long start = ManagementFactory.getThreadMXBean().getCurrentThreadCpuTime();
        for (JavaClass it : classes) {
            methods += it.getMethods().length;
            try {
                well += wellMethods(it.getClassName());
            } catch (ClassNotFoundException | RuntimeException | LinkageError e) {
                SAID.merge("threw " + e.getClass().getSimpleName(), 1, Integer::sum);
            }
        }
        long end = ManagementFactory.getThreadMXBean().getCurrentThreadCpuTime();
        System.out.printf("BCEL: %d classes, %d methods, %d well, %.3f s%n", classes.size(), methods, well, (end - start) / 1e9);
        SAID.entrySet().stream().sorted((a, b) -> b.getValue() - a.getValue()).limit(6).forEach(it -> System.out.println("  " + it.getValue() + " " + it.getKey()));
    }
}
