import java.io.IOException;
import java.net.UnixDomainSocketAddress;
import java.nio.ByteBuffer;
import java.nio.channels.SocketChannel;
import java.nio.charset.StandardCharsets;
import java.nio.file.Files;
import java.nio.file.Path;
import java.util.*;
import java.util.stream.Collectors;

/**
 * A client of `refheap serve`, for Java 17 or later. A refusal or a fault is an exception with its words; a handle is a number, 0 is null.
 *
 * java Refheap.java PATH       a session with the server whose socket is at PATH
 */
public final class Refheap implements AutoCloseable {
    /** The heap did not do it; nothing has changed, but that after 2 the heap was collected. */
    public static final class Refused extends IOException {
        public final int number;

        Refused(String line, int number) {
            super(line + ": " + (number < WORDS.length ? WORDS[number] : "unknown"));
            this.number = number;
        }
    }

    /** A call on a file or a socket failed: `notfound`, `denied` or `other`. */
    public static final class Fault extends IOException {
        Fault(String line, String name) {
            super(line + ": " + name);
        }
    }

    static final String[] WORDS = {
        "", "no memory", "heap full", "no such handle", "handles full", "wrong kind", "no such field", "wrong type", "null", "no such name", "names full", "busy",
        "closed", "no session", "numbers exhausted", "malformed", "too long", "not out", "queue empty", "resources full"};

    private final SocketChannel channel;
    private final ByteBuffer unread = ByteBuffer.allocate(65_536).flip();

    private Refheap(SocketChannel channel) {
        this.channel = channel;
    }

    /** Connects; where nobody listens yet, tries again for so many milliseconds. The first reply shows that the session has its turn. */
    public static Refheap connect(Path path, long milliseconds) throws IOException, InterruptedException {
        long until = System.nanoTime() + milliseconds * 1_000_000;
        while (true) {
            try {
                return new Refheap(SocketChannel.open(UnixDomainSocketAddress.of(path)));
            } catch (IOException nobody) {
                if (System.nanoTime() >= until) {
                    throw nobody;
                }
                Thread.sleep(10);
            }
        }
    }

    /** Sends all lines and gives as many replies, as text. A thread of its own writes, so any number of lines is right. */
    public List<String> ahead(List<String> lines) throws IOException, InterruptedException {
        ByteBuffer data = StandardCharsets.US_ASCII.encode(lines.stream().map(line -> line + "\n").collect(Collectors.joining()));
        if (data.remaining() <= 4096) { // All replies so far were read: so few bytes always go.
            return exchange(data, lines.size());
        }
        Thread writer = new Thread(() -> {
            try {
                write(data);
            } catch (IOException over) {
                // What was answered before can still be read; then the reader meets the end.
            }
        });
        writer.start();
        try {
            return exchange(ByteBuffer.allocate(0), lines.size());
        } finally {
            writer.join();
        }
    }

    private void write(ByteBuffer data) throws IOException {
        while (data.hasRemaining()) {
            channel.write(data);
        }
    }

    private List<String> exchange(ByteBuffer data, int count) throws IOException {
        write(data);
        List<String> replies = new ArrayList<>(count);
        StringBuilder reply = new StringBuilder();
        while (replies.size() < count) {
            if (!unread.hasRemaining()) {
                int got = channel.read(unread.clear());
                unread.flip();
                if (got < 0) {
                    throw new IOException("the server ended the session");
                }
            }
            char next = (char) unread.get();
            if (next == '\n') {
                replies.add(reply.toString());
                reply.setLength(0);
            } else {
                reply.append(next);
            }
        }
        return replies;
    }

    /** Sends one line and gives what its reply says: the words after the first, or the one word, as `ok`, `yes` and `end`. */
    public String ask(String line) throws IOException, InterruptedException {
        String[] reply = ahead(List.of(line)).get(0).split(" ", 2);
        switch (reply[0]) {
            case "!":
                throw new Refused(line, Integer.parseInt(reply[1]));
            case "fault":
                throw new Fault(line, reply[1]);
            default:
                return reply[reply.length - 1];
        }
    }

    /** The same for a line that is answered by a number, for instance a handle. */
    public int number(String line) throws IOException, InterruptedException {
        return Integer.parseInt(ask(line));
    }

    /** Writes all of the data, 200 bytes a line; a short write is continued. */
    public void writeAll(int guard, byte[] data) throws IOException, InterruptedException {
        for (int at = 0; at < data.length;) {
            int taken = number("write " + guard + " " + HexFormat.of().formatHex(data, at, Math.min(data.length, at + 200)));
            if (taken == 0) {
                throw new IOException("nothing was taken");
            }
            at += taken;
        }
    }

    /** Says bye, and closes the connection. */
    @Override
    public void close() throws IOException {
        try (channel) {
            exchange(StandardCharsets.US_ASCII.encode("bye\n"), 1);
        }
    }

    public static void main(String[] words) throws InterruptedException {
        if (words.length != 1) {
            System.err.println("usage: java Refheap.java PATH, the socket of a server");
            System.exit(2);
        }
        try (Refheap heap = Refheap.connect(Path.of(words[0]), 1000)) {
            example(heap, words[0] + ".example");
        } catch (IOException fault) {
            System.err.println("Refheap: " + words[0] + ": " + fault.getMessage());
            System.exit(1);
        }
    }

    private static void example(Refheap heap, String path) throws IOException, InterruptedException {
        int array = heap.number("array 1000"), thing = heap.number("new -");
        heap.ask("put " + array + " 999 " + thing);
        System.out.println("an element of an array: " + heap.ask("same " + thing + " " + heap.number("get " + array + " 999")));
        heap.ask("drop " + array);
        List<String> replies = heap.ahead(Collections.nCopies(20_000, "same 0 0"));
        System.out.println("20000 lines ahead, " + Collections.frequency(replies, "yes") + " replies");

        byte[] bytes = new byte[1000];
        for (int at = 0; at < bytes.length; at++) {
            bytes[at] = (byte) (at * 7);
        }
        int guard = heap.number("open w " + path);
        heap.writeAll(guard, bytes);
        heap.ask("close " + guard);
        guard = heap.number("open r " + path);
        StringBuilder back = new StringBuilder();
        for (String part; !(part = heap.ask("read " + guard + " 200")).equals("end");) {
            back.append(part);
        }
        System.out.println("1000 bytes written and read back: " + (Arrays.equals(bytes, HexFormat.of().parseHex(back)) ? "yes" : "no"));
        Files.delete(Path.of(path));

        int dropped = heap.number("new -"), weak = heap.number("weak " + dropped + " 0");
        heap.ask("drop " + dropped);
        heap.ask("gc");
        System.out.println("dropped and collected: " + heap.ask("refers " + weak + " 0"));
        try {
            heap.ask("get 200 1");
        } catch (Refused refused) {
            System.out.println(refused.getMessage());
        }
        try {
            heap.ask("open r /nowhere/x");
        } catch (Fault fault) {
            System.out.println(fault.getMessage());
        }
    }
}
