import java.io.BufferedInputStream;
import java.io.BufferedOutputStream;
import java.io.DataInputStream;
import java.io.DataOutputStream;
import java.io.EOFException;
import java.io.IOException;
import java.io.InputStream;
import java.io.OutputStream;
import java.io.UncheckedIOException;
import java.nio.charset.StandardCharsets;
import java.util.ArrayList;
import java.util.List;
import java.util.concurrent.CompletableFuture;
import java.util.concurrent.TimeUnit;
import java.util.concurrent.locks.ReentrantLock;

/**
 * Asks one program that stays, {@code classck serve}. Any number of threads may ask, each in its turn. The program is never started
 * anew: once it has ended, each call throws {@link Ended}, with what it wrote on standard error.
 */
public final class Gate implements AutoCloseable {
    /** The status, 0 or 1 as the program's, and the text. */
    public record Answer(int status, String text) {}

    /** The program has ended, or has given no whole reply and was ended. */
    public static final class Ended extends IllegalStateException {
        private static final long serialVersionUID = 1;

        Ended(String how) {
            super(how);
        }
    }

    /** The most bytes that a class file may have. */
    public static final int MOST = 16_777_216;

    private static final int MOST_SAID = 4096, SECONDS = 5, GREATEST_RELEASE = 27;

    private final ReentrantLock lock = new ReentrantLock();
    private final Process process;
    private final DataOutputStream messages;
    private final DataInputStream replies;
    private final CompletableFuture<String> said = new CompletableFuture<>();
    private volatile String end;

    private Gate(Process process) {
        this.process = process;
        messages = new DataOutputStream(new BufferedOutputStream(process.getOutputStream(), 1 << 16));
        replies = new DataInputStream(new BufferedInputStream(process.getInputStream(), 1 << 16));
        var reader = new Thread(() -> said.complete(frontOf(process.getErrorStream())), "standard error of classck");
        reader.setDaemon(true);
        reader.start();
    }

    /** Starts a program, with options of {@code serve}; without any it judges as this virtual machine does, by its release. */
    public static Gate start(String program, String... options) throws IOException {
        var words = new ArrayList<>(List.of(program, "serve"));
        words.addAll(List.of(options));
        if (options.length == 0) {
            words.addAll(List.of("--release", Integer.toString(Math.min(Runtime.version().feature(), GREATEST_RELEASE))));
        }
        return new Gate(new ProcessBuilder(words).start());
    }

    /** Makes a class known. */
    public Answer known(byte[] file) {
        return ask('k', file);
    }

    /** The verdicts on a class, as {@code verify} prints them. */
    public Answer judge(byte[] file) {
        return ask('v', file);
    }

    /** The verdicts on a class, which becomes known if nothing is refused. */
    public Answer define(byte[] file) {
        return ask('d', file);
    }

    /** The methods of a class that are refused, as {@code explain} prints them. */
    public Answer explain(byte[] file) {
        return ask('x', file);
    }

    /** Forgets all known classes. */
    public void forget() {
        ask('f', new byte[0]);
    }

    /** Ends the program. A call that has no reply yet throws {@link Ended}. */
    @Override
    public void close() {
        end = "the gate is closed";
        if (lock.tryLock()) {
            try {
                messages.close();
            } catch (IOException gone) {
                // The program has ended already.
            } finally {
                lock.unlock();
            }
        } else {
            process.destroyForcibly();
        }
    }

    private Answer ask(char kind, byte[] file) {
        if (file.length > MOST) {
            throw new IllegalArgumentException("a class file of " + file.length + " bytes: " + MOST + " are the most");
        } else if (lock.isHeldByCurrentThread()) {
            throw new IllegalStateException("a message within another");
        }
        lock.lock();
        try {
            if (end != null) {
                throw new Ended(end);
            }
            return reply(kind, file);
        } finally {
            lock.unlock();
        }
    }

    /** Sends a message and reads the reply. If it is not read whole, what is left would be taken for the next one: the program is ended. */
    private Answer reply(char kind, byte[] file) {
        Answer answer = null;
        try {
            messages.writeByte(kind);
            messages.writeInt(file.length);
            messages.write(file);
            messages.flush();
            int status = replies.readUnsignedByte();
            answer = new Answer(status, text(replies.readInt()));
            return answer;
        } catch (IOException gone) {
            throw new Ended(howItEnded());
        } finally {
            if (answer == null) {
                process.destroyForcibly();
                end = end == null ? "a call was cut off, and the program ended" : end;
            }
        }
    }

    private String text(int length) throws IOException {
        if (length < 0) {
            throw new IOException("no reply");
        }
        byte[] text = replies.readNBytes(length);
        if (text.length < length) {
            throw new EOFException();
        }
        return new String(text, StandardCharsets.US_ASCII);
    }

    private String howItEnded() {
        process.onExit().completeOnTimeout(process, SECONDS, TimeUnit.SECONDS).join();
        if (process.isAlive()) {
            process.destroyForcibly();
        }
        int status = process.onExit().join().exitValue();
        String text = said.completeOnTimeout("", SECONDS, TimeUnit.SECONDS).join();
        end = end == null ? "the program ended with status " + status + ": " + text.strip() : end;
        return end;
    }

    /** The first bytes of a stream, which is read to its end. */
    private static String frontOf(InputStream stream) {
        try (stream) {
            byte[] front = stream.readNBytes(MOST_SAID);
            stream.transferTo(OutputStream.nullOutputStream());
            return new String(front, StandardCharsets.UTF_8);
        } catch (IOException | UncheckedIOException closed) {
            return "";
        }
    }
}
