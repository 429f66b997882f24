import java.io.IOException;
import java.io.InputStream;
import java.lang.reflect.InvocationTargetException;
import java.net.JarURLConnection;
import java.net.URL;
import java.net.URLClassLoader;
import java.net.URLConnection;
import java.nio.file.Path;
import java.security.CodeSigner;
import java.security.CodeSource;
import java.util.Arrays;
import java.util.Set;
import java.util.concurrent.ConcurrentHashMap;
import java.util.jar.JarFile;

/**
 * A loader of the classes of jars and folders that has each one judged before it is defined. For one that is refused it throws
 * {@code VerifyError}, whose text is that of {@code classck explain}. {@code java GateLoader PROGRAM PATHS MAIN ARGUMENT..} runs a
 * class so.
 */
public final class GateLoader extends URLClassLoader {
    static {
        registerAsParallelCapable();
    }

    private final LoaderGate gate;
    private final Set<JarFile> jars = ConcurrentHashMap.newKeySet();

    /** A loader that asks this gate, to which no class of another loader may be known. */
    public GateLoader(Gate gate, URL[] urls, ClassLoader parent) {
        super(urls, parent);
        this.gate = new LoaderGate(gate, this::getResourceAsStream);
    }

    @Override
    protected Class<?> findClass(String name) throws ClassNotFoundException {
        String path = name.replace('.', '/');
        URL place = findResource(path + ".class");
        if (place == null) {
            throw new ClassNotFoundException(name);
        }
        try {
            URLConnection connection = place.openConnection();
            byte[] file;
            try (InputStream in = connection.getInputStream()) {
                file = in.readNBytes(Gate.MOST + 1);
            }
            gate.refusal(path, file).ifPresent(GateLoader::refuse);
            CodeSource source = source(connection, name);
            return defineClass(name, file, 0, file.length, source);
        } catch (IOException why) {
            throw new ClassNotFoundException(name, why);
        }
    }

    private static void refuse(String why) {
        throw new VerifyError(why);
    }

    /** Where the class is from; of a jar its manifest describes the package. */
    private CodeSource source(URLConnection connection, String name) throws IOException {
        if (!(connection instanceof JarURLConnection jar)) {
            String place = connection.getURL().toString();
            URL folder = Arrays.stream(getURLs()).filter(it -> place.startsWith(it.toString())).findFirst().orElse(connection.getURL());
            return new CodeSource(folder, (CodeSigner[]) null);
        }
        jars.add(jar.getJarFile());
        int end = name.lastIndexOf('.');
        if (end > 0 && getDefinedPackage(name.substring(0, end)) == null && jar.getManifest() != null) {
            try {
                definePackage(name.substring(0, end), jar.getManifest(), jar.getJarFileURL());
            } catch (IllegalArgumentException defined) {
                // Another thread has defined the package.
            }
        }
        return new CodeSource(jar.getJarFileURL(), jar.getJarEntry().getCodeSigners());
    }

    /** Ends the program, too: no class is defined any more. */
    @Override
    public void close() throws IOException {
        gate.close();
        super.close();
        for (JarFile it : jars) {
            it.close();
        }
    }

    public static void main(String[] words) throws Throwable {
        String[] paths = words[1].split(java.io.File.pathSeparator);
        var urls = new URL[paths.length];
        for (int i = 0; i < paths.length; i++) {
            urls[i] = Path.of(paths[i]).toUri().toURL();
        }
        var loader = new GateLoader(Gate.start(words[0]), urls, ClassLoader.getPlatformClassLoader());
        Thread.currentThread().setContextClassLoader(loader);
        var main = loader.loadClass(words[2]).getMethod("main", String[].class);
        try {
            main.invoke(null, (Object) Arrays.copyOfRange(words, 3, words.length));
        } catch (InvocationTargetException thrown) {
            throw thrown.getCause();
        }
    }
}
