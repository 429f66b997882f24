import java.io.PrintWriter;
import java.io.StringWriter;
import java.net.URL;
import java.net.URLClassLoader;
import java.nio.file.Files;
import java.nio.file.Path;
import org.apache.bcel.Repository;
import org.apache.bcel.classfile.ClassParser;
import org.apache.bcel.util.ClassPath;
import org.apache.bcel.util.SyntheticRepository;
import org.apache.bcel.verifier.VerificationResult;
import org.apache.bcel.verifier.Verifier;
import org.apache.bcel.verifier.VerifierFactory;
import org.objectweb.asm.ClassReader;
import org.objectweb.asm.util.CheckClassAdapter;

/** Says of the class K in each folder whether HotSpot, ASM and BCEL refuse it: see bench/others. */
public class Examples {
    private interface Judge {
        /** What is said against the class, nothing where it passes. */
        String told(Path folder) throws Exception;
    }

    private static URLClassLoader loader(Path folder) throws Exception {
        return new URLClassLoader(new URL[] {folder.toUri().toURL()}, Examples.class.getClassLoader());
    }

    private static String hotspot(Path folder) throws Exception {
        // a class is linked, and so verified, before its methods are told; it is not initialized
        loader(folder).loadClass("K").getDeclaredMethods();
        Class.forName("K", true, loader(folder));
        return "";
    }

    private static String asm(Path folder) throws Exception {
        StringWriter text = new StringWriter();
        CheckClassAdapter.verify(new ClassReader(Files.readAllBytes(folder.resolve("K.class"))), loader(folder), false, new PrintWriter(text));
        return text.toString();
    }

    private static String of(VerificationResult result) {
        return result.getStatus() == VerificationResult.VERIFIED_OK ? "" : result.getMessage();
    }

    private static String bcel(Path folder) throws Exception {
        Repository.setRepository(SyntheticRepository.getInstance(new ClassPath(folder + ":" + System.getProperty("java.class.path"))));
        Repository.addClass(new ClassParser(folder.resolve("K.class").toString()).parse());
        Verifier verifier = VerifierFactory.getVerifier("K");
        String told = of(verifier.doPass1()) + of(verifier.doPass2());
        return told.isEmpty() ? of(verifier.doPass3a(0)) + of(verifier.doPass3b(0)) : told;
    }

    private static String answer(Judge judge, Path folder) {
        try {
            String told = judge.told(folder);
            return told.isEmpty() ? "passes" : "refused";
        } catch (VerifyError | ClassFormatError e) {
            return "refused";
        } catch (Throwable e) {
            return "throws " + e.getClass().getSimpleName();
        }
    }

    public static void main(String[] folders) {
        for (String it : folders) {
            Path folder = Path.of(it);
            System.out.println(folder.getFileName() + "|" + answer(Examples::hotspot, folder) + "|" + answer(Examples::asm, folder) + "|" + answer(Examples::bcel, folder));
        }
    }
}
