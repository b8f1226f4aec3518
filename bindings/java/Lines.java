import java.io.BufferedInputStream;
import java.io.BufferedOutputStream;
import java.io.ByteArrayOutputStream;
import java.io.FileOutputStream;
import java.io.FileDescriptor;
import java.io.IOException;
import java.io.InputStream;
import java.io.OutputStream;

/**
 * The line tool in Java: answers each line of standard input by a line of standard output. Its
 * arguments are shards, work, invalidate, pend, nodes and storages, in this order; the last ones
 * may be left out.
 */
public final class Lines {
    private Lines() {}

    static Puljemrod.Options options(String[] words) {
        Puljemrod.Options options = new Puljemrod.Options();
        options.shards = words.length > 0 ? Integer.parseInt(words[0]) : options.shards;
        options.work = words.length > 1 ? Integer.parseInt(words[1]) : options.work;
        options.invalidate = words.length > 2 ? Integer.parseInt(words[2]) : options.invalidate;
        options.pend = words.length > 3 ? Integer.parseInt(words[3]) : options.pend;
        options.nodes = words.length > 4 ? Integer.parseInt(words[4]) : options.nodes;
        options.storages = words.length > 5 ? Integer.parseInt(words[5]) : options.storages;
        return options;
    }

    /** The next line without its end; null at the end of the input. */
    static byte[] next(InputStream input) throws IOException {
        ByteArrayOutputStream line = new ByteArrayOutputStream();
        int it = input.read();
        if (it < 0) {
            return null;
        }
        for (; it >= 0 && it != '\n'; it = input.read()) {
            line.write(it);
        }
        return line.toByteArray();
    }

    public static void main(String[] words) throws IOException {
        InputStream input = new BufferedInputStream(System.in);
        // System.out would hide a write that fails.
        try (OutputStream output = new BufferedOutputStream(new FileOutputStream(FileDescriptor.out));
                Puljemrod manager = new Puljemrod(options(words))) {
            for (byte[] line = next(input); line != null; line = next(input)) {
                output.write(manager.line(line));
                output.write('\n');
            }
        }
    }
}
