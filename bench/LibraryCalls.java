import java.lang.foreign.Arena;
import java.lang.foreign.MemorySegment;
import java.lang.foreign.ValueLayout;
import java.lang.invoke.MethodHandle;
import java.nio.file.Files;
import java.nio.file.Path;
import java.util.Arrays;

/**
 * Times calls of libclassck: {@code LibraryCalls TIMES CLASS KNOWN..} prints how long a verify by
 * {@code examples/java/Classck.java} and the call of the library alone take, in turn and warm, and by how much they differ: the
 * medians, and, for a machine with other work, what one call of twenty needs at most. Before the call alone the files are copied
 * too, outside of its time, so that both find them in the same caches.
 */
public final class LibraryCalls {
    private static final MethodHandle CALL = Classck.call();
    private static final int PIECE = 2048;

    private static void put(byte[][] files, MemorySegment bytes) {
        long end = 0;
        for (byte[] file : files) {
            for (int at = 0; at < file.length; at += PIECE) {
                MemorySegment.copy(file, at, bytes, ValueLayout.JAVA_BYTE, end + at, Math.min(PIECE, file.length - at));
            }
            end += file.length;
        }
    }

    private static void tell(String what, long whole, long bare) {
        System.out.printf("%s: %.2f us by Classck, %.2f us the call alone, %.2f us beside it%n", what, whole / 1e3, bare / 1e3, (whole - bare) / 1e3);
    }

    public static void main(String[] words) throws Throwable {
        int times = Integer.parseInt(words[0]);
        byte[][] files = new byte[words.length - 1][];
        int[] ends = new int[files.length];
        int length = 0;
        for (int i = 0; i < files.length; i++) {
            files[i] = Files.readAllBytes(Path.of(words[i + 1]));
            ends[i] = length += files[i].length;
        }
        var arena = Arena.global();
        MemorySegment bytes = arena.allocate(length + 1), places = arena.allocateFrom(ValueLayout.JAVA_INT, ends);
        MemorySegment text = arena.allocate(1 << 16), outcome = arena.allocate(16, 8);
        MemorySegment request = arena.allocateFrom(ValueLayout.JAVA_LONG, Classck.Command.VERIFY.ordinal() + 1, 1, 1);
        long[] whole = new long[times], bare = new long[times];
        try (var classck = new Classck()) {
            for (int round = 0; round < 2; round++) {
                for (int i = 0; i < times; i++) {
                    long start = System.nanoTime();
                    classck.answer(Classck.Command.VERIFY, 0, 1, files);
                    whole[i] = System.nanoTime() - start;
                    put(files, bytes);
                    start = System.nanoTime();
                    CALL.invokeExact(request, bytes, (long) length, places, (long) ends.length, text, text.byteSize(), outcome);
                    bare[i] = System.nanoTime() - start;
                }
            }
        }
        Arrays.sort(whole);
        Arrays.sort(bare);
        System.out.printf("%d files, %d bytes, %d calls%n", files.length, length, times);
        tell("the fastest of twenty", whole[times / 20], bare[times / 20]);
        tell("the median", whole[times / 2], bare[times / 2]);
    }
}
