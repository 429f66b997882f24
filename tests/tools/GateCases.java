import java.net.URL;
import java.nio.file.Files;
import java.nio.file.Path;
import java.util.ArrayList;
import java.util.Collections;
import java.util.List;
import java.util.Map;
import java.util.Random;
import java.util.concurrent.Callable;
import java.util.concurrent.ConcurrentSkipListMap;
import java.util.concurrent.Executors;
import java.util.concurrent.Future;
import java.util.concurrent.TimeUnit;
import java.util.jar.JarFile;

/** What tests/run/serve asks of the clients in examples/java: {@code GateCases CASE PROGRAM FILE..} prints what happened. */
public final class GateCases {
    private static List<String> namesIn(Path jar) throws Exception {
        try (var file = new JarFile(jar.toFile())) {
            return file.stream().map(it -> it.getName()).filter(it -> it.endsWith(".class")).map(it -> it.substring(0, it.length() - 6).replace('/', '.')).sorted().toList();
        }
    }

    /** The outcome of each class of a jar, loaded and linked by some threads, each in an order of its own. */
    private static Map<String, String> load(String program, Path jar, int threads) throws Exception {
        var outcomes = new ConcurrentSkipListMap<String, String>();
        try (var loader = new GateLoader(Gate.start(program), new URL[] {jar.toUri().toURL()}, ClassLoader.getPlatformClassLoader())) {
            inThreads(threads, number -> {
                var names = new ArrayList<>(namesIn(jar));
                Collections.shuffle(names, new Random(number));
                for (String name : names) {
                    outcomes.merge(name, outcome(loader, name), (one, other) -> one.equals(other) ? one : one + " | " + other);
                }
                return null;
            });
        }
        return outcomes;
    }

    private static String outcome(ClassLoader loader, String name) {
        try {
            Class<?> it = Class.forName(name, false, loader);
            it.getDeclaredMethods();
            return it.getClassLoader() == loader ? "loaded" : "of another loader";
        } catch (Throwable thrown) {
            return thrown.getClass().getSimpleName() + ": " + thrown.getMessage();
        }
    }

    private interface Work {
        Object of(int number) throws Exception;
    }

    private static Thread daemon(Runnable work) {
        var thread = new Thread(work);
        thread.setDaemon(true);
        return thread;
    }

    private static List<Object> inThreads(int threads, Work work) throws Exception {
        var pool = Executors.newFixedThreadPool(threads, GateCases::daemon);
        var futures = new ArrayList<Future<Object>>();
        for (int i = 0; i < threads; i++) {
            int number = i;
            Callable<Object> call = () -> work.of(number);
            futures.add(pool.submit(call));
        }
        var results = new ArrayList<>();
        for (var it : futures) {
            results.add(it.get(60, TimeUnit.SECONDS));
        }
        pool.shutdown();
        return results;
    }

    /** Eight threads ask about each file, again and again; one of them is interrupted all the time. */
    private static void ask(String program, List<byte[]> files) throws Exception {
        try (var gate = Gate.start(program)) {
            var wanted = new ArrayList<Gate.Answer>();
            for (byte[] file : files) {
                wanted.add(gate.judge(file));
            }
            var wrong = inThreads(8, number -> {
                int others = 0;
                for (int i = 0; i < 300; i++) {
                    if (number == 0) {
                        Thread.currentThread().interrupt();
                    }
                    int it = (i + number) % files.size();
                    others += gate.judge(files.get(it)).equals(wanted.get(it)) ? 0 : 1;
                }
                Thread.interrupted();
                return others;
            });
            System.out.println("wrong " + wrong);
            wanted.forEach(it -> System.out.print(it.status() + "\n" + it.text()));
        }
    }

    /** Two calls of each program, each with the exception that it ends with. */
    private static void die(List<String> programs) throws Exception {
        for (String program : programs) {
            try (var gate = Gate.start(program, "--dynamic")) {
                for (int i = 0; i < 2; i++) {
                    System.out.println(thrown(() -> gate.judge(new byte[100_000])));
                }
            }
        }
    }

    private static String thrown(Callable<?> call) {
        try {
            return "none: " + call.call();
        } catch (Throwable thrown) {
            return thrown.getClass().getName() + ": " + thrown.getMessage();
        }
    }

    /** A gate is closed while a thread waits for the reply of a program that gives none; and asked after it is closed. */
    private static void close(String program) throws Exception {
        var gate = Gate.start(program);
        var pool = Executors.newSingleThreadExecutor(GateCases::daemon);
        var asked = pool.submit(() -> thrown(() -> gate.judge(new byte[10])));
        Thread.sleep(300);
        gate.close();
        System.out.println(asked.get(20, TimeUnit.SECONDS));
        System.out.println(thrown(() -> gate.judge(new byte[10])));
        gate.close();
        pool.shutdown();
    }

    private static void lengths(String program) throws Exception {
        try (var gate = Gate.start(program)) {
            System.out.println(thrown(() -> gate.judge(new byte[Gate.MOST + 1])));
            System.out.println(gate.judge(new byte[Gate.MOST]));
            gate.forget();
            System.out.println(gate.judge(new byte[0]));
        }
        System.out.println(thrown(() -> Gate.start("/absent/program")));
    }

    public static void main(String[] words) throws Exception {
        String program = words[1];
        switch (words[0]) {
            case "load" -> load(program, Path.of(words[2]), Integer.parseInt(words[3])).forEach((name, outcome) -> System.out.println(name + ": " + outcome.strip()));
            case "ask" -> {
                var files = new ArrayList<byte[]>();
                for (int i = 2; i < words.length; i++) {
                    files.add(Files.readAllBytes(Path.of(words[i])));
                }
                ask(program, files);
            }
            case "die" -> die(List.of(words).subList(1, words.length));
            case "close" -> close(program);
            case "lengths" -> lengths(program);
            default -> throw new IllegalArgumentException(words[0]);
        }
    }
}
