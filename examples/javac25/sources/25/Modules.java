import module java.base;

/** An import of a whole module: names of several of its packages. */
public class Modules {
    record Kept(List<String> names) implements AutoCloseable {
        @Override
        public void close() {
            names.clear();
        }
    }

    static final ScopedValue<String> USER = ScopedValue.newInstance();

    static Map<Boolean, List<String>> parted(Collection<String> all, Predicate<? super String> test) {
        return all.stream().filter(Objects::nonNull).collect(Collectors.partitioningBy(test));
    }

    static Optional<BigInteger> product(int... factors) {
        return IntStream.of(factors).mapToObj(BigInteger::valueOf).reduce(BigInteger::multiply);
    }

    static int counted(Path file, Charset charset) throws IOException {
        try (Stream<String> lines = Files.lines(file, charset)) {
            return lines.mapToInt(String::length).reduce(0, (a, b) -> a + b);
        } catch (UncheckedIOException e) {
            throw e.getCause();
        }
    }

    static String bound(Callable<String> task) throws Exception {
        return ScopedValue.where(USER, "me").call(() -> USER.isBound() ? task.call() + USER.get() : "none");
    }
}
