import java.io.BufferedInputStream;
import java.io.BufferedOutputStream;
import java.io.FileDescriptor;
import java.io.FileOutputStream;
import java.io.IOException;
import java.io.InputStream;
import java.io.OutputStream;
import java.util.Collections;
import java.util.HashSet;
import java.util.Set;

/**
 * Calls Puljemrod.java. With the word {@code lines}, and then shards, work, invalidate, pend, nodes
 * and storages, it answers each line of standard input; where memory is refused it makes the call
 * again. With the word {@code checks} it tries the calls over stand_in_library.c in a heap of 20
 * MiB.
 */
final class JavaCalls {
    private JavaCalls() {}

    /** How often a call is made at most. */
    private static final int TRIES = 1000;
    private static final int THREADS = 4;
    private static final int CALLS = 1000;
    /** The heap has space for one array of this size, and not for two. */
    private static final int HALF = 9_000_000;

    private static int refusedCalls;
    private static int refusedTexts;
    private static int passed;
    private static int failed;

    private static byte[] text(Puljemrod manager) {
        for (int at = 0; at < TRIES; at++) {
            try {
                return manager.textBytes();
            } catch (Puljemrod.TextOwedException owed) {
                refusedTexts++;
            }
        }
        throw new IllegalStateException("the text is refused for ever");
    }

    private static byte[] answer(Puljemrod manager, byte[] line) {
        for (int at = 0; at < TRIES; at++) {
            try {
                return manager.line(line);
            } catch (Puljemrod.TextOwedException owed) {
                refusedTexts++;
                return text(manager);
            } catch (Puljemrod.RefusedException refused) {
                refusedCalls++;
            }
        }
        throw new IllegalStateException("the line is refused for ever");
    }

    /** A new manager. How often opening it was refused is not counted. */
    private static Puljemrod opened(String[] options) {
        for (int at = 0; at < TRIES; at++) {
            try {
                return new Puljemrod(Lines.options(options));
            } catch (Puljemrod.RefusedException refused) {
                continue;
            }
        }
        throw new IllegalStateException("opening is refused for ever");
    }

    private static void answerLines(String[] options) throws IOException {
        InputStream input = new BufferedInputStream(System.in);
        OutputStream output = new BufferedOutputStream(new FileOutputStream(FileDescriptor.out));
        try (Puljemrod manager = opened(options)) {
            for (byte[] line = Lines.next(input); line != null; line = Lines.next(input)) {
                output.write(answer(manager, line));
                output.write('\n');
            }
        }
        output.flush();
        System.err.println(refusedCalls + " calls and " + refusedTexts + " texts were refused for memory");
    }

    private static void check(boolean isSo, String what) {
        if (isSo) {
            passed++;
        } else {
            failed++;
            System.out.println("failed: " + what);
        }
    }

    /** Whether the call ends by an exception or error of this class. */
    private static boolean isThrown(Class<? extends Throwable> wanted, Runnable call) {
        try {
            call.run();
            return false;
        } catch (Throwable thrown) {
            return thrown.getClass() == wanted;
        }
    }

    private static boolean isOwed(Runnable call) {
        return isThrown(Puljemrod.TextOwedException.class, call);
    }

    private static void textsAreOwed() {
        try (Puljemrod manager = new Puljemrod(new Puljemrod.Options())) {
            check(Puljemrod.version().equals("71.2.3"), "the version");
            check(isOwed(() -> manager.line("3")), "the text of a line is owed");
            check(isOwed(manager::text) && isOwed(manager::textBytes), "the text is refused again");
            check(manager.text().equals("3") && manager.text().equals("3"), "the text that was owed, twice");
            check(isOwed(() -> manager.line("*")) && isOwed(manager::text), "a text that is always refused");
            check(manager.line("#").equals("2"), "lines with owed texts count, and once");
        }
    }

    private static void heapIsTooSmall() {
        try (Puljemrod manager = new Puljemrod(new Puljemrod.Options())) {
            String before = manager.line("#");
            String line = "x".repeat(HALF);
            check(isThrown(OutOfMemoryError.class, () -> manager.line(line)), "no memory for the bytes of a line");
            check(Integer.parseInt(manager.line("#")) == Integer.parseInt(before) + 1, "that line does not count");
        }
        try (Puljemrod manager = new Puljemrod(new Puljemrod.Options())) {
            int before = Integer.parseInt(manager.line("#"));
            check(isOwed(() -> manager.line("+" + HALF)), "no memory for the text");
            check(isOwed(() -> manager.line(("+" + 10 * HALF).getBytes())), "no memory for the bytes of the text");
            check(isOwed(() -> manager.line("+3000000000")) && isOwed(manager::textBytes), "more bytes than an array has");
            check(Integer.parseInt(manager.line("#")) == before + 4, "these lines count");
            check(manager.line("+5000").equals("x".repeat(5000)), "a text of several pieces");
        }
    }

    private static void refusals() {
        Puljemrod.Options wrong = new Puljemrod.Options();
        wrong.shards = 0;
        try (Puljemrod manager = new Puljemrod(wrong)) {
            check(manager == null, "0 shards are taken");
        } catch (Puljemrod.RefusedException refused) {
            check(refused.number == 15 && refused.getMessage().equals("refused 15 BadConfig"), "0 shards");
        }
        Puljemrod manager = new Puljemrod(new Puljemrod.Options());
        check(isThrown(NullPointerException.class, () -> manager.line((byte[]) null)), "null is no line");
        try {
            check(manager.line("x".repeat(64)).isEmpty(), "the library has no memory");
        } catch (Puljemrod.RefusedException refused) {
            check(refused.number == 14, "the library has no memory");
        }
        manager.close();
        manager.close();
        check(isThrown(IllegalStateException.class, () -> manager.line("0")), "a line after close");
        check(isThrown(IllegalStateException.class, manager::text), "the text after close");
    }

    private static void secretsAreDrawn() {
        Set<String> seen = new HashSet<>();
        for (int at = 0; at < 10; at++) {
            try (Puljemrod manager = new Puljemrod(new Puljemrod.Options())) {
                String[] words = manager.line("?").split(" ");
                check(String.join(" ", words).startsWith("options 1 2 1000 100 0 0 "), "the standard options");
                check(words[8].equals("256") && words[9].equals("4096"), "the standard limits");
                seen.add(words[7]);
            }
        }
        check(seen.size() == 10 && !seen.contains("0"), "ten secrets that were drawn");
        Puljemrod.Options given = new Puljemrod.Options();
        given.firstRound = 5;
        given.firstCall = -1;
        given.secret = 0;
        given.nodes = 65_536;
        given.storages = 1_048_576;
        try (Puljemrod manager = new Puljemrod(given)) {
            check(manager.line("?").equals("options 1 2 1000 100 5 18446744073709551615 0 65536 1048576"), "options that are given");
        }
    }

    /** Each call of four threads has a number of its own. */
    private static void threads() throws InterruptedException {
        Set<String> seen = Collections.synchronizedSet(new HashSet<>());
        try (Puljemrod manager = new Puljemrod(new Puljemrod.Options())) {
            int before = Integer.parseInt(manager.line("#")) + 1;
            Thread[] threads = new Thread[THREADS];
            for (int at = 0; at < THREADS; at++) {
                threads[at] = new Thread(null, () -> {
                    for (int call = 0; call < CALLS; call++) {
                        seen.add(manager.line("#"));
                    }
                }, "calls", 2 << 20);
                threads[at].start();
            }
            for (Thread thread : threads) {
                thread.join();
            }
            check(seen.size() == THREADS * CALLS, "calls of several threads");
            check(manager.line("#").equals(String.valueOf(before + THREADS * CALLS)), "how many calls they made");
        }
    }

    public static void main(String[] words) throws IOException, InterruptedException {
        if (words[0].equals("lines")) {
            String[] options = new String[words.length - 1];
            System.arraycopy(words, 1, options, 0, options.length);
            answerLines(options);
            return;
        }
        textsAreOwed();
        heapIsTooSmall();
        refusals();
        secretsAreDrawn();
        threads();
        System.out.println(passed + " passed, " + failed + " failed");
        System.exit(failed == 0 ? 0 : 1);
    }
}
