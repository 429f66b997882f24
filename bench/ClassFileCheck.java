import java.lang.classfile.ClassFile;
import java.lang.classfile.ClassHierarchyResolver;
import java.net.URL;
import java.net.URLClassLoader;
import java.nio.file.Files;
import java.nio.file.Path;
import java.util.List;

/** Says of the class K in each folder whether `ClassFile.verify` of a JDK 24 or later refuses it: see bench/others. */
public class ClassFileCheck {
    private static String answer(Path folder) throws Exception {
        URL[] places = {folder.toUri().toURL()};
        ClassHierarchyResolver resolver = ClassHierarchyResolver.ofResourceParsing(new URLClassLoader(places));
        ClassFile.ClassHierarchyResolverOption option = ClassFile.ClassHierarchyResolverOption.of(resolver);
        try {
            List<VerifyError> told = ClassFile.of(option).verify(Files.readAllBytes(folder.resolve("K.class")));
            return told.isEmpty() ? "passes" : "refused";
        } catch (Throwable e) {
            return "throws " + e.getClass().getSimpleName();
        }
    }

    public static void main(String[] folders) throws Exception {
        for (String it : folders) {
            System.out.println(Path.of(it).getFileName() + "|" + answer(Path.of(it)));
        }
    }
}
