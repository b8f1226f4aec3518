import java.util.ArrayDeque;
import java.util.ArrayList;
import java.util.List;
import java.util.Map;
import java.util.SortedMap;
import java.util.TreeMap;
import java.util.TreeSet;

/**
 * The loop of a NameNode: events come in, a round is made at each tick of a clock, and its commands
 * go out. The cluster is simulated in this process: examples/stories/README.md, "A whole loop". The
 * argument is the time between two ticks in milliseconds, 20 if it is left out.
 */
public final class NameNode {
    private static final int TICKS = 12;
    private static final int SILENT_TICKS = 2;
    private static final int TICKS_OF_REPORTS = 3;
    private static final int CAPACITY = 100;
    private static final int LENGTH = 10;

    /** A line, and the node that sent it. */
    private static final class Event {
        final DataNode from;
        final String line;

        Event(DataNode from, String format, Object... words) {
            this.from = from;
            this.line = String.format(format, words);
        }
    }

    /** A simulated DataNode with one disk. */
    private static final class DataNode {
        final int node;
        final int rack;
        final int disk;
        final TreeSet<Integer> blocks;

        DataNode(int node, int rack, List<Integer> blocks) {
            this.node = node;
            this.rack = rack;
            this.disk = 10 * node + 1;
            this.blocks = new TreeSet<>(blocks);
        }

        Event registration() {
            String register = "{\"op\":\"register\",\"node\":%d,\"rack\":%d,\"storages\":[%d]}";
            return new Event(this, register, node, rack, disk);
        }

        Event heartbeat() {
            int free = CAPACITY - LENGTH * blocks.size();
            String heartbeat = "{\"op\":\"heartbeat\",\"node\":%d,\"remaining\":[[%d,%d]]}";
            return new Event(this, heartbeat, node, disk, free);
        }

        Event report() {
            List<String> items = new ArrayList<>();
            blocks.forEach(block -> items.add(String.format("[%d,1,%d]", block, LENGTH)));
            String report = "{\"op\":\"report\",\"storage\":%d,\"blocks\":[%s]}";
            return new Event(this, report, disk, String.join(",", items));
        }

        Event store(int block) {
            blocks.add(block);
            String received = "{\"op\":\"received\",\"storage\":%d,\"id\":%d,\"gen\":1,\"len\":%d}";
            return new Event(this, received, disk, block, LENGTH);
        }

        Event erase(int block) {
            blocks.remove(block);
            return new Event(this, "{\"op\":\"deleted\",\"storage\":%d,\"id\":%d}", disk, block);
        }
    }

    private final SortedMap<Integer, DataNode> nodes = new TreeMap<>(Map.of(
            1, new DataNode(1, 1, List.of(1, 2, 3)), 2, new DataNode(2, 1, List.of(1, 2, 4)),
            3, new DataNode(3, 2, List.of(1, 3, 4)), 4, new DataNode(4, 2, List.of(2, 3, 4))));
    /** What the DataNodes have sent. */
    private final ArrayDeque<Event> sent = new ArrayDeque<>();
    private final Puljemrod manager;
    /** When each node was heard of. */
    private final SortedMap<Integer, Integer> seen = new TreeMap<>();
    private boolean inSafeMode = true;

    private NameNode(Puljemrod manager) {
        this.manager = manager;
    }

    private void register(DataNode it) {
        sent.addAll(List.of(it.registration(), it.heartbeat(), it.report()));
    }

    /** Node 4 is away from tick 2 to tick 6, and node 2 restarts at tick 8. */
    private void tickOfNodes(int tick) {
        if (tick == 8) {
            register(nodes.get(2));
        }
        for (DataNode it : nodes.values()) {
            if (it.node == 4 && tick >= 2 && tick <= 6) {
                continue;
            }
            sent.add(it.heartbeat());
            if (tick % TICKS_OF_REPORTS == 1) {
                sent.add(it.report());
            }
        }
    }

    /** The items of an answer that is no refusal. */
    private String[] call(String format, Object... words) {
        String answer = manager.line(String.format(format, words));
        if (answer.startsWith("refused")) {
            throw new IllegalStateException(answer);
        }
        return answer.split("; ");
    }

    private void add(int block) {
        call("{\"op\":\"add\",\"id\":%d,\"gen\":1,\"len\":%d,\"repl\":3}", block, LENGTH);
    }

    /** Takes an event. One of an unknown node is refused, and it has to register. */
    private void take(int tick, Event event) {
        int node = event.from.node;
        String answer = manager.line(event.line);
        if (answer.startsWith("ok ")) {
            if (seen.put(node, tick) == null) {
                System.out.println("node " + node + " registers");
            }
        } else if (answer.equals("refused 1 UnknownNode")) {
            register(event.from);
        } else if (answer.equals("refused 2 NodeKnown")) {
            System.out.println("node " + node + " restarts");
        } else if (!answer.equals("refused 3 UnknownStorage")) {
            throw new IllegalStateException(answer);
        }
    }

    /** Nodes that have been silent for too long are dead. */
    private void bury(int tick) {
        for (int node : List.copyOf(seen.keySet())) {
            if (tick - seen.get(node) >= SILENT_TICKS) {
                call("{\"op\":\"dead\",\"node\":%d}", node);
                seen.remove(node);
                System.out.println("node " + node + " is dead");
            }
        }
    }

    /** Makes a round, once the first reports have shown every block, and hands out its commands. */
    private void round(int tick) {
        int missing = call("{\"op\":\"list_missing\"}").length - 1;
        inSafeMode = inSafeMode && missing > 0;
        if (inSafeMode) {
            return;
        }
        String[] items = call("{\"op\":\"round\"}");
        int excess = call("{\"op\":\"list_excess\"}").length - 1;
        System.out.println(items[0] + ": " + missing + " missing, " + excess + " in excess");
        for (String command : List.of(items).subList(1, items.length)) {
            carryOut(tick, command.split(" "));
        }
    }

    /** Makes a copy or a delete, and sends the notice. One command gets lost. */
    private void carryOut(int tick, String[] words) {
        if (words[0].equals("copy")) {
            System.out.printf("  node %s copies block %s from storage %s to storage %s%n",
                    words[1], words[2], words[5], words[6]);
            sent.add(nodes.get(Integer.parseInt(words[6]) / 10).store(Integer.parseInt(words[2])));
            return;
        }
        boolean isLost = tick == 7 && words[3].equals("3");
        System.out.printf("  node %s deletes block %s from storage %s%s%n",
                words[1], words[3], words[2], isLost ? ": lost" : "");
        if (!isLost) {
            sent.add(nodes.get(Integer.parseInt(words[1])).erase(Integer.parseInt(words[3])));
        }
    }

    private void run(long interval) throws InterruptedException {
        long start = System.nanoTime();
        // All blocks are added before anything is reported. Block 5 is written at tick 5.
        for (int block = 1; block <= 4; block++) {
            add(block);
        }
        for (int tick = 1; tick <= TICKS; tick++) {
            Thread.sleep(Math.max(0, interval * tick - (System.nanoTime() - start) / 1_000_000));
            if (tick == 5) {
                add(5);
                sent.add(nodes.get(1).store(5));
            }
            tickOfNodes(tick);
            while (!sent.isEmpty()) {
                take(tick, sent.remove());
            }
            bury(tick);
            round(tick);
        }
        for (int block = 1; block <= 5; block++) {
            String[] places = call("{\"op\":\"list_places\",\"id\":%d}", block);
            places[0] = "block " + block + ": storages";
            System.out.println(String.join(" ", places));
        }
    }

    public static void main(String[] words) throws InterruptedException {
        try (Puljemrod manager = new Puljemrod(new Puljemrod.Options())) {
            new NameNode(manager).run(words.length > 0 ? Long.parseLong(words[0]) : 20);
        }
    }
}
