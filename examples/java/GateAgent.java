import java.io.IOException;
import java.io.InputStream;
import java.io.PrintStream;
import java.lang.instrument.ClassFileTransformer;
import java.lang.instrument.Instrumentation;
import java.lang.module.ModuleReference;
import java.lang.module.ResolvedModule;
import java.lang.ref.Cleaner;
import java.lang.ref.WeakReference;
import java.net.URI;
import java.security.ProtectionDomain;
import java.util.Arrays;
import java.util.List;
import java.util.Map;
import java.util.Optional;
import java.util.Set;
import java.util.concurrent.ConcurrentHashMap;
import java.util.stream.Collectors;

/**
 * An agent that has each class judged which a loader of the application defines: {@code -javaagent:gate.jar=PROGRAM[,OPTION..]}. One
 * that is refused is not loaded, and standard error says why. The classes of the JDK are not judged. Each loader has a program of its
 * own, since another loader may have other classes of the same names.
 */
public final class GateAgent implements ClassFileTransformer {
    /** A virtual machine ignores a transformer that throws, and takes an empty array for no change; so a refused class becomes this, which is none. */
    private static final byte[] NO_CLASS = {0};

    /** Loaded before any class is judged: to load one in the middle of a message would take another message. */
    private static final List<Class<?>> OWN = List.of(Gate.class, Gate.Answer.class, Gate.Ended.class, Key.class, LoaderGate.class, LoaderGate.Head.class);

    private static final Cleaner CLEANER = Cleaner.create();

    private final String program;
    private final String[] options;
    private final PrintStream errors = System.err;
    private final Set<Module> modulesOfJdk = modulesOfJdk();
    private final Map<Key, LoaderGate> gates = new ConcurrentHashMap<>();

    /** A loader that may be collected. No loader can say that it is equal to another. */
    private static final class Key extends WeakReference<ClassLoader> {
        private final int hash;

        Key(ClassLoader loader) {
            super(loader);
            hash = System.identityHashCode(loader);
        }

        @Override
        public int hashCode() {
            return hash;
        }

        @Override
        public boolean equals(Object other) {
            return this == other || other instanceof Key it && get() != null && it.refersTo(get());
        }

        /** The file of a class, as the loader has it; of packages that only the JDK may have, as that has it. */
        InputStream file(String name) {
            return (name.startsWith("java/") ? ClassLoader.getPlatformClassLoader() : get()).getResourceAsStream(name);
        }
    }

    private GateAgent(String... words) {
        program = words[0];
        options = Arrays.copyOfRange(words, 1, words.length);
    }

    /** Where the program does not answer, the virtual machine ends with status 2 and a line on standard error. */
    public static void premain(String words, Instrumentation instrumentation) {
        try {
            if (words == null || words.isEmpty()) {
                throw new IllegalArgumentException("it is called as -javaagent:gate.jar=PROGRAM[,OPTION..]");
            }
            var agent = new GateAgent(words.split(","));
            agent.begin();
            instrumentation.addTransformer(agent, true);
        } catch (Exception why) {
            System.err.println("GateAgent: " + why.getMessage());
            System.exit(2);
        }
    }

    /** Loads what the agent needs, and has the program judge a class. */
    private void begin() throws IOException, ClassNotFoundException {
        for (Class<?> it : OWN) {
            Class.forName(it.getName(), true, it.getClassLoader());
        }
        String name = GateAgent.class.getName();
        try (InputStream in = GateAgent.class.getResourceAsStream(name + ".class")) {
            gate(GateAgent.class.getClassLoader()).refusal(name, in.readAllBytes()).ifPresent(why -> {
                throw new IllegalStateException(why);
            });
        }
    }

    @Override
    public byte[] transform(Module module, ClassLoader loader, String name, Class<?> redefined, ProtectionDomain domain, byte[] file) {
        if (isOfJdk(module, loader)) {
            return null;
        }
        Optional<String> refusal;
        try {
            refusal = name == null ? Optional.of("it has no name") : gate(loader).refusal(name, file);
        } catch (Throwable thrown) {
            refusal = Optional.of(thrown.toString());
        }
        if (refusal.isEmpty()) {
            return null;
        }
        errors.println("classck refuses the class " + (name == null ? "" : LoaderGate.escaped(name)) + ": " + refusal.get().strip());
        return NO_CLASS;
    }

    private boolean isOfJdk(Module module, ClassLoader loader) {
        if (loader == null || loader == ClassLoader.getPlatformClassLoader() || modulesOfJdk.contains(module)) {
            return true;
        }
        // The loader of what java.lang.reflect generates, which HotSpot does not verify.
        Class<?> its = loader.getClass();
        return its.getClassLoader() == null && its.getName().equals("jdk.internal.reflect.DelegatingClassLoader");
    }

    private static Set<Module> modulesOfJdk() {
        var boot = ModuleLayer.boot();
        return boot.configuration().modules().stream().filter(GateAgent::isInImage).map(it -> boot.findModule(it.name()).orElseThrow()).collect(Collectors.toSet());
    }

    private static boolean isInImage(ResolvedModule module) {
        return Optional.of(module.reference()).flatMap(ModuleReference::location).map(URI::getScheme).filter("jrt"::equals).isPresent();
    }

    private LoaderGate gate(ClassLoader loader) throws IOException {
        var key = new Key(loader);
        synchronized (gates) {
            LoaderGate known = gates.get(key);
            if (known != null) {
                return known;
            }
            var gate = new LoaderGate(Gate.start(program, options), key::file);
            gates.put(key, gate);
            CLEANER.register(loader, () -> end(key));
            return gate;
        }
    }

    private void end(Key key) {
        LoaderGate gate = gates.remove(key);
        if (gate != null) {
            gate.close();
        }
    }
}
