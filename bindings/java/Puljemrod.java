import java.io.IOException;
import java.io.InputStream;
import java.io.UncheckedIOException;
import java.nio.charset.StandardCharsets;
import java.nio.file.Files;
import java.nio.file.Path;
import java.nio.file.Paths;
import java.nio.file.StandardCopyOption;
import java.security.SecureRandom;
import java.util.Objects;

/**
 * The block management of an HDFS NameNode: a manager that answers the lines of docs/FORMATS.md.
 *
 * <pre>
 * try (Puljemrod manager = new Puljemrod(new Puljemrod.Options())) {
 *     manager.line("{\"op\":\"register\",\"node\":1,\"rack\":1,\"storages\":[11]}");   // "ok 0 0"
 *     manager.line("{\"op\":\"add\",\"id\":7,\"gen\":1,\"len\":64,\"repl\":1}");
 *     manager.line("{\"op\":\"received\",\"storage\":11,\"id\":7,\"gen\":1,\"len\":64}");
 *     manager.line("{\"op\":\"list_places\",\"id\":7}");   // "places 7; 11"
 * }
 * </pre>
 *
 * The answers are proved to be the definition's. Any thread may call a manager: its methods are
 * synchronized, so that its calls are made one after another. The property {@code puljemrod.jni}
 * names the library that the README builds; without it the jar's own is loaded.
 */
public final class Puljemrod implements AutoCloseable {
    static {
        String library = System.getProperty("puljemrod.jni");
        if (library == null) {
            loadPacked();
        } else {
            System.load(Paths.get(library).toAbsolutePath().toString());
        }
    }

    /** Loads the library of the jar from a file in the folder of temporary files. */
    private static void loadPacked() {
        try (InputStream packed = Puljemrod.class.getResourceAsStream("libpuljemrod_jni.so")) {
            if (packed == null) {
                throw new UnsatisfiedLinkError("the property puljemrod.jni names no library, and no jar has one (bindings/java/README.md)");
            }
            Path file = Files.createTempFile("libpuljemrod_jni", ".so");
            try {
                Files.copy(packed, file, StandardCopyOption.REPLACE_EXISTING);
                System.load(file.toString());
            } finally {
                Files.delete(file);
            }
        } catch (IOException error) {
            throw new UncheckedIOException("the library of the jar cannot be written; -Djava.io.tmpdir names another folder", error);
        }
    }

    /** How a manager is set up; docs/FORMATS.md has the ranges. */
    public static final class Options {
        public int shards = 1;
        public int work = 2;
        public int invalidate = 1000;
        public int pend = 100;
        public long firstRound = 0;
        public long firstCall = 0;
        /**
         * Random bits that whoever chooses block numbers does not know, drawn from the system. 0 is
         * no secret: then chosen numbers can make each call slow.
         */
        public long secret = new SecureRandom().nextLong();
        /** The most nodes alive at a time, 1 to 65,536; 0 means 256. */
        public int nodes = 256;
        /** The most storages at a time, 1 to 1,048,576; 0 means 4,096. */
        public int storages = 4096;
    }

    /**
     * A manager could not be opened, or a line not be answered: then nothing has changed. The
     * number is that of docs/FORMATS.md.
     */
    public static final class RefusedException extends RuntimeException {
        private static final long serialVersionUID = 1;
        public final int number;

        RefusedException(int number) {
            super(number == 15 ? "refused 15 BadConfig" : number == 14 ? "refused 14 Memory" : "refused " + number);
            this.number = number;
        }
    }

    /**
     * The line is answered and counts, but memory was refused for the text of its answer, or an
     * array cannot hold it. It has no stack trace: it was made before any line, since there may be
     * no memory when it is thrown.
     */
    public static final class TextOwedException extends RuntimeException {
        private static final long serialVersionUID = 1;

        TextOwedException() {
            super("the line is answered, but memory was refused for the text", null, false, false);
        }
    }

    private static final TextOwedException TEXT_OWED = new TextOwedException();

    private static final int OK = 0;
    private static final int MEMORY = 14;
    private static final int NO_TEXT = 34;

    /** The most bytes of an array. */
    private static final int MOST_BYTES = Integer.MAX_VALUE - 8;

    /** The version of the library, as "2.0.0". */
    public static String version() {
        int number = versionNumber();
        return number / 1_000_000 + "." + number / 1_000 % 1_000 + "." + number % 1_000;
    }

    /** The address of the C library's handle; 0 once it is closed. */
    private long handle;

    /**
     * An empty manager. Throws where an option is outside its range (15), or memory was refused
     * (14).
     */
    public Puljemrod(Options options) {
        int[] code = new int[1];
        handle = open(options.shards, options.work, options.invalidate, options.pend,
                options.firstRound, options.firstCall, options.secret, options.nodes, options.storages, code);
        if (code[0] != OK) {
            throw new RefusedException(code[0]);
        }
    }

    /**
     * Answers a line, without a line end. A refusal is an answer too ("refused 5 UnknownBlock").
     *
     * <p>After a TextOwedException the line counts, and {@code text} gives its answer. After any
     * other exception or error it does not count, and nothing has changed. These are a
     * RefusedException (14) where the library was refused memory, an OutOfMemoryError where Java
     * was, and an IllegalStateException after {@code close}.
     */
    public synchronized String line(String line) {
        answer(line.getBytes(StandardCharsets.UTF_8));
        return text();
    }

    /** The same for bytes. */
    public synchronized byte[] line(byte[] line) {
        answer(line);
        return textBytes();
    }

    /**
     * The answer to the last line once more, also after a TextOwedException. No state changes.
     * Throws TextOwedException where memory is refused.
     */
    public synchronized String text() {
        byte[] bytes = textBytes();
        try {
            return new String(bytes, StandardCharsets.US_ASCII);
        } catch (OutOfMemoryError error) {
            throw TEXT_OWED;
        }
    }

    /** The same in bytes. */
    public synchronized byte[] textBytes() {
        long len = textLength(opened());
        if (len < 0 || len > MOST_BYTES) {
            throw TEXT_OWED;
        }
        byte[] text;
        try {
            text = new byte[(int) len];
        } catch (OutOfMemoryError error) {
            throw TEXT_OWED;
        }
        copy(handle, text);
        return text;
    }

    @Override
    public synchronized void close() {
        if (handle != 0) {
            close(handle);
            handle = 0;
        }
    }

    private long opened() {
        if (handle == 0) {
            throw new IllegalStateException("the manager is closed");
        }
        return handle;
    }

    private void answer(byte[] line) {
        int code = answer(opened(), Objects.requireNonNull(line));
        if (code == MEMORY) {
            throw new RefusedException(MEMORY);
        }
        if (code == NO_TEXT) {
            throw TEXT_OWED;
        }
    }

    private static native int versionNumber();

    private static native long open(int shards, int work, int invalidate, int pend,
            long firstRound, long firstCall, long secret, int nodes, int storages, int[] code);

    private static native int answer(long handle, byte[] line);

    private static native long textLength(long handle);

    private static native void copy(long handle, byte[] text);

    private static native void close(long handle);
}
