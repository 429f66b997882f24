import java.lang.foreign.Arena;
import java.lang.foreign.FunctionDescriptor;
import java.lang.foreign.Linker;
import java.lang.foreign.MemorySegment;
import java.lang.foreign.SymbolLookup;
import java.lang.foreign.ValueLayout;
import java.lang.invoke.MethodHandle;
import java.nio.charset.StandardCharsets;
import java.nio.file.Files;
import java.nio.file.Path;
import java.security.SecureRandom;

/**
 * Calls libclassck, from Java 22 on. Each thread makes an object of its own, which keeps room in native memory for the
 * next call. {@code java -Dclassck.path=libclassck.so --enable-native-access=ALL-UNNAMED Classck.java CLASS KNOWN..}
 * prints what {@code classck verify} prints.
 */
public final class Classck implements AutoCloseable {
    /** The commands, in the order of their numbers, which begin with 1. */
    public enum Command { CHECK, SHOW, VERIFY, EXPLAIN, PLAY, VERIFY_EACH }

    /** The options, to be added. */
    public static final int JSON = 1, DYNAMIC = 2;

    /** The status, 0 or 1 as the program's, and the text. */
    public record Answer(int status, String text) {}

    private static final int NO_CALL = 2, NO_MEMORY = 3;
    private static final long SEED = new SecureRandom().nextLong();
    private static final MethodHandle CALL = call();

    /** Longer pieces are copied by instructions after which some processors run slower for a while. */
    private static final int PIECE = 2048;

    private Arena arena;
    private MemorySegment request, bytes, ends, text, outcome;

    /** An object for the thread that makes it. */
    public Classck() {
        makeRoom(1 << 17, 1 << 8, 1 << 13);
    }

    /** The call of the library. It may take long, so it gets copies: a call with arrays of the heap holds up the collector. */
    static MethodHandle call() {
        System.load(Path.of(System.getProperty("classck.path")).toAbsolutePath().toString());
        var library = SymbolLookup.loaderLookup();
        var pointer = ValueLayout.ADDRESS;
        var number = ValueLayout.JAVA_LONG;
        var type = FunctionDescriptor.ofVoid(pointer, pointer, number, pointer, number, pointer, number, pointer);
        return Linker.nativeLinker().downcallHandle(library.find("classck_answer").orElseThrow(), type);
    }

    /** Gives the room back, and takes some for so many bytes of files, so many files, and so many bytes of text. */
    private void makeRoom(long length, long count, long told) {
        close();
        arena = Arena.ofConfined();
        request = arena.allocate(24, 8);
        outcome = arena.allocate(16, 8);
        bytes = arena.allocate(length);
        ends = arena.allocate(4 * count, 4);
        text = arena.allocate(told);
    }

    /** Puts the files one after the other, and where each ends, and returns where the last one does. */
    private long put(byte[][] files) {
        long end = 0;
        for (int i = 0; i < files.length; i++) {
            byte[] file = files[i];
            for (int at = 0; at < file.length; at += PIECE) {
                MemorySegment.copy(file, at, bytes, ValueLayout.JAVA_BYTE, end + at, Math.min(PIECE, file.length - at));
            }
            end += file.length;
            ends.setAtIndex(ValueLayout.JAVA_INT, i, (int) end);
        }
        return end;
    }

    /** Calls once, and returns how many bytes the text has, of which as many as fit are in the room. */
    private long call(Command command, int options, int classes, byte[][] files) {
        long length = put(files);
        request.set(ValueLayout.JAVA_INT, 0, command.ordinal() + 1);
        request.set(ValueLayout.JAVA_INT, 4, options);
        request.set(ValueLayout.JAVA_LONG, 8, classes);
        request.set(ValueLayout.JAVA_LONG, 16, SEED);
        try {
            CALL.invokeExact(request, bytes, length, ends, (long) files.length, text, text.byteSize(), outcome);
        } catch (Throwable thrown) {
            throw new AssertionError(thrown);
        }
        return outcome.get(ValueLayout.JAVA_LONG, 8);
    }

    /** The answer to a command about files. The first {@code classes} are judged, and the others are known classes. */
    public Answer answer(Command command, int options, int classes, byte[]... files) {
        int length = 0;
        for (byte[] file : files) {
            length = Math.addExact(length, file.length);
        }
        if (length > bytes.byteSize() || 4L * files.length > ends.byteSize()) {
            makeRoom(2L * length, 2L * files.length, text.byteSize());
        }
        long needed = call(command, options, classes, files);
        if (needed > text.byteSize()) {
            makeRoom(bytes.byteSize(), ends.byteSize() / 4, needed);
            call(command, options, classes, files);
        }
        int status = outcome.get(ValueLayout.JAVA_INT, 0);
        if (status == NO_CALL) {
            throw new IllegalArgumentException("the command has not these options, or may not judge so many files");
        } else if (status == NO_MEMORY) {
            throw new OutOfMemoryError("libclassck");
        }
        byte[] told = new byte[Math.toIntExact(needed)];
        MemorySegment.copy(text, ValueLayout.JAVA_BYTE, 0, told, 0, told.length);
        return new Answer(status, new String(told, StandardCharsets.US_ASCII));
    }

    @Override
    public void close() {
        if (arena != null) {
            arena.close();
            arena = null;
        }
    }

    public static void main(String[] names) throws Exception {
        byte[][] files = new byte[names.length][];
        for (int i = 0; i < names.length; i++) {
            files[i] = Files.readAllBytes(Path.of(names[i]));
        }
        Answer found;
        try (var classck = new Classck()) {
            found = classck.answer(Command.VERIFY, 0, 1, files);
        }
        System.out.print(found.text());
        System.out.flush();
        System.exit(found.status());
    }
}
