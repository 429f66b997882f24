import java.lang.reflect.Proxy;
import java.net.URL;
import java.net.URLClassLoader;
import java.nio.file.Path;
import java.util.concurrent.Executors;
import java.util.concurrent.TimeUnit;
import java.util.function.Supplier;

/** A program for examples/java/GateAgent.java: {@code Guarded FOLDER CLASS..} says of each class of a folder whether it is loaded. */
public final class Guarded {
    private enum Way {
        DIRECT { @Override String told() { return "direct"; } },
        BY_LAMBDA { @Override String told() { Supplier<String> it = () -> "a lambda"; return it.get(); } };

        abstract String told();
    }

    private interface Told {
        String told();
    }

    public static String reflected() {
        return "reflected";
    }

    /** So often that the JDK generates a class for the call. */
    private static String byReflection() throws Exception {
        Object told = null;
        for (int i = 0; i < 40; i++) {
            told = Guarded.class.getMethod("reflected").invoke(null);
        }
        return (String) told;
    }

    private static String byProxy() {
        return ((Told) Proxy.newProxyInstance(Guarded.class.getClassLoader(), new Class<?>[] {Told.class}, (proxy, method, arguments) -> "a proxy")).told();
    }

    private static void load(ClassLoader loader, String name) {
        try {
            Class.forName(name, true, loader);
            System.out.println(name + " is loaded");
        } catch (Throwable thrown) {
            System.out.println(name + ": " + thrown.getClass().getSimpleName());
        }
    }

    /** How many programs run, once those have ended whose loaders are collected. */
    private static long programs() throws InterruptedException {
        for (int i = 0; i < 100 && ProcessHandle.current().children().count() > 1; i++) {
            System.gc();
            Thread.sleep(50);
        }
        return ProcessHandle.current().children().count();
    }

    public static void main(String[] words) throws Exception {
        System.out.println(Way.DIRECT.told() + ", " + Way.BY_LAMBDA.told() + ", " + byReflection() + ", " + byProxy() + ", " + String.join("-", "x", "y"));
        load(words);
        System.out.println("programs: " + programs());
    }

    private static void load(String[] words) throws Exception {
        try (var loader = new URLClassLoader(new URL[] {Path.of(words[0]).toUri().toURL()})) {
            var pool = Executors.newFixedThreadPool(8);
            for (int i = 1; i < words.length; i++) {
                load(loader, words[i]);
            }
            for (int i = 0; i < 8; i++) {
                pool.submit(() -> {
                    for (String word : words) {
                        Class.forName(word, true, loader);
                    }
                    return null;
                });
            }
            pool.shutdown();
            pool.awaitTermination(60, TimeUnit.SECONDS);
        }
    }
}
