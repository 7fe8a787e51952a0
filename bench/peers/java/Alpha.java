import java.io.BufferedReader;
import java.io.InputStreamReader;
import java.math.BigInteger;
import java.util.ArrayList;
import java.util.Arrays;
import java.util.BitSet;
import java.util.Comparator;
import java.util.List;
import java.util.Queue;
import java.util.TreeSet;
import java.util.concurrent.ArrayBlockingQueue;
import java.util.concurrent.ConcurrentLinkedQueue;
import java.util.concurrent.CountDownLatch;
import java.util.concurrent.ForkJoinPool;
import java.util.concurrent.atomic.AtomicBoolean;

/**
 * The colouring under synchroniser alpha, in Java 17: what {@code forestplan plan} writes.
 *
 * <pre>javac -d out Alpha.java && java -XX:+UseParallelGC -cp out Alpha MODE &lt; network.col</pre>
 *
 * MODE is {@code actors}: nodes are tasks of a work-stealing pool, with one concurrent inbox each; or {@code links}:
 * the same with an ArrayBlockingQueue of capacity 4 for each directed link.
 */
public class Alpha {
    enum Kind { PAYLOAD, ACK, SAFE, CLOSE }

    record Wire(Kind kind, int pulse, BigInteger x) {}

    record Item(int port, BigInteger x) {}

    record Parcel(int port, Wire wire) {}

    /** A node under synchroniser alpha. */
    static class Node {
        final Actors net;
        final Colouring program;
        final int degree, last;
        Node[] peers;
        int[] back;             // my port at the neighbour
        Actors.Task task;
        int pulse, waiting, closed;
        boolean said;
        final int[] safes = new int[2];     // taken safes of an even and of an odd pulse
        @SuppressWarnings("unchecked")
        final List<Item>[] boxes = new List[] {new ArrayList<Item>(), new ArrayList<Item>()};
        List<Item> spare = new ArrayList<>();

        Node(Actors net, BigInteger id, int degree, int delta, int forests) {
            this.net = net;
            this.degree = degree;
            last = 12 + 3 * forests * (delta + 1);
            program = new Colouring(this, id, delta, forests);
        }

        void start() {
            for (int port = 0; port < degree; port++) payload(port, program.id);
            settle();
            advance();
        }

        void payload(int port, BigInteger x) {
            waiting++;
            net.send(this, port, new Wire(Kind.PAYLOAD, pulse, x));
        }

        void all(Kind kind) {
            Wire wire = new Wire(kind, pulse, null);
            for (int port = 0; port < degree; port++) net.send(this, port, wire);
        }

        void settle() {
            if (waiting == 0 && pulse < last) {
                said = true;
                all(Kind.SAFE);
            }
        }

        void advance() {
            while (said && pulse < last && safes[pulse & 1] == degree) {
                int now = pulse & 1;
                List<Item> box = boxes[now];
                boxes[now] = spare;
                safes[now] = 0;
                said = false;
                pulse++;
                program.round(pulse, box);
                box.clear();
                spare = box;
                if (pulse == last) all(Kind.CLOSE);
                settle();
            }
        }

        void take(int port, Wire wire) {
            switch (wire.kind) {
                case PAYLOAD -> {
                    boxes[wire.pulse & 1].add(new Item(port, wire.x));
                    net.send(this, port, new Wire(Kind.ACK, wire.pulse, null));
                }
                case ACK -> {
                    waiting--;
                    settle();
                }
                case SAFE -> safes[wire.pulse & 1]++;
                case CLOSE -> closed++;
            }
        }
    }

    /** The rounds of the colouring at one node. */
    static class Colouring {
        static final BigInteger[] SMALL = new BigInteger[1024];
        static { Arrays.setAll(SMALL, BigInteger::valueOf); }
        final Node node;
        final BigInteger id;
        final int delta, forests;
        final boolean[] up;
        final int[] number;             // the forest of a port
        final BigInteger[] colour, before;
        final int[] three;
        final BitSet chosen = new BitSet();
        int parents, old, merged, forest, k, j;

        Colouring(Node node, BigInteger id, int delta, int forests) {
            this.node = node;
            this.id = id;
            this.delta = delta;
            this.forests = forests;
            up = new boolean[node.degree];
            number = new int[node.degree];
            colour = new BigInteger[forests];
            before = new BigInteger[forests];
            three = new int[forests];
        }

        void round(int p, List<Item> box) {
            if (p > 12) {
                merge(box);
            } else if (p == 1) {
                box.sort(Comparator.comparing(Item::x));
                for (Item it : box) {
                    if (it.x.compareTo(id) < 0) continue;
                    up[it.port] = true;
                    node.payload(it.port, SMALL[parents]);
                    number[it.port] = parents++;
                }
            } else {
                if (p == 2) {
                    for (Item it : box) number[it.port] = it.x.intValue();
                    Arrays.fill(colour, id);
                } else {
                    work(p, box);
                }
                for (int port = 0; port < up.length && p < 12; port++)
                    if (!up[port]) node.payload(port, colour[number[port]]);
                if (p == 12) Arrays.setAll(three, f -> colour[f].intValue());
            }
        }

        void work(int p, List<Item> box) {
            BigInteger[] of = new BigInteger[forests];
            for (Item it : box) of[number[it.port]] = it.x;
            for (int f = 0; f < forests; f++) {
                BigInteger own = colour[f], parent = of[f];
                if (p <= 6) {
                    int i = parent == null ? 0 : own.xor(parent).getLowestSetBit();
                    colour[f] = SMALL[2 * i + (own.testBit(i) ? 1 : 0)];
                } else if (p % 2 == 1) {
                    before[f] = own;
                    colour[f] = parent == null ? other(own, own) : parent;
                } else if (own.intValue() == 9 - p / 2) {
                    colour[f] = other(before[f], parent);
                }
            }
        }

        static BigInteger other(BigInteger a, BigInteger b) {
            int c = 0;
            while (SMALL[c].equals(a) || SMALL[c].equals(b)) c++;
            return SMALL[c];
        }

        void merge(List<Item> box) {
            if (k == 0 && j == 0) {
                old = merged;
                chosen.clear();
            }
            for (Item it : box) chosen.set(it.x.intValue());
            if (j == old && three[forest] == k) {
                merged = chosen.nextClearBit(0);
                for (int port = 0; port < up.length && !(k == 2 && j == delta); port++)
                    if (number[port] <= forest) node.payload(port, SMALL[merged]);
            }
            if (++j > delta) {
                j = 0;
                if (++k == 3) {
                    k = 0;
                    forest++;
                }
            }
        }
    }

    /** Nodes as tasks of a pool: a node is scheduled when something comes for it, and at most once at a time. */
    static class Actors {
        final ForkJoinPool pool = new ForkJoinPool(
            Runtime.getRuntime().availableProcessors(), ForkJoinPool.defaultForkJoinWorkerThreadFactory, null, true);
        final boolean links;
        CountDownLatch running;

        Actors(boolean links) { this.links = links; }

        class Task extends AtomicBoolean implements Runnable {
            final Node node;
            final Queue<Parcel> inbox = new ConcurrentLinkedQueue<>();
            ArrayBlockingQueue<Wire>[] in;
            boolean started;

            Task(Node node) {
                this.node = node;
                node.task = this;
            }

            void wake() { if (!get() && compareAndSet(false, true)) pool.execute(this); }

            boolean takeAll() {
                boolean some = false;
                if (links) {
                    for (int port = 0; port < in.length; port++)
                        for (Wire wire; (wire = in[port].poll()) != null; some = true) node.take(port, wire);
                } else {
                    for (Parcel it; (it = inbox.poll()) != null; some = true) node.take(it.port, it.wire);
                }
                return some;
            }

            boolean isEmpty() {
                if (!links) return inbox.isEmpty();
                for (var link : in) if (!link.isEmpty()) return false;
                return true;
            }

            public void run() {
                if (!started) {
                    started = true;
                    node.start();
                }
                while (takeAll()) node.advance();
                if (node.closed == node.degree && node.pulse == node.last) {
                    running.countDown();
                    return;
                }
                set(false);
                if (!isEmpty()) wake();
            }
        }

        void send(Node from, int port, Wire wire) {
            Task to = from.peers[port].task;
            // At most two wires of a link are under way, so no link is ever full.
            if (links) to.in[from.back[port]].add(wire);
            else to.inbox.add(new Parcel(from.back[port], wire));
            to.wake();
        }

        @SuppressWarnings("unchecked")
        void run(Node[] nodes) throws Exception {
            running = new CountDownLatch(nodes.length);
            for (Node node : nodes) {
                new Task(node).in = new ArrayBlockingQueue[node.degree];
                Arrays.setAll(node.task.in, port -> new ArrayBlockingQueue<Wire>(4));
            }
            for (Node node : nodes) node.task.wake();
            running.await();
            pool.shutdown();
        }
    }

    public static void main(String[] words) throws Exception {
        BigInteger[] ids = {};
        List<TreeSet<Integer>> near = new ArrayList<>();
        List<String> lines = new BufferedReader(new InputStreamReader(System.in)).lines().toList();
        for (String line : lines) {
            String[] f = line.trim().split("[ \t]+");
            if (f[0].equals("p")) {
                ids = new BigInteger[Integer.parseInt(f[2])];
                Arrays.setAll(ids, v -> BigInteger.valueOf(v + 1));
                for (var id : ids) near.add(new TreeSet<>());
            } else if (f[0].equals("i")) {
                ids[Integer.parseInt(f[1]) - 1] = new BigInteger(f[2]);
            } else if (f[0].equals("e")) {
                int a = Integer.parseInt(f[1]) - 1, b = Integer.parseInt(f[2]) - 1;
                near.get(a).add(b);
                near.get(b).add(a);
            }
        }
        int n = ids.length, delta = 0, forests = 0;
        for (int v = 0; v < n; v++) {
            int higher = 0;
            for (int w : near.get(v)) if (ids[w].compareTo(ids[v]) > 0) higher++;
            delta = Math.max(delta, near.get(v).size());
            forests = Math.max(forests, higher);
        }
        Actors net = new Actors(words[0].equals("links"));
        Node[] nodes = new Node[n];
        for (int v = 0; v < n; v++) nodes[v] = new Node(net, ids[v], near.get(v).size(), delta, forests);
        for (int v = 0; v < n; v++) {
            nodes[v].peers = near.get(v).stream().map(w -> nodes[w]).toArray(Node[]::new);
            int self = v;
            nodes[v].back = near.get(v).stream().mapToInt(w -> near.get(w).headSet(self).size()).toArray();
        }
        net.run(nodes);
        StringBuilder plan = new StringBuilder("plan\n");
        for (int v = 0; v < n; v++)
            plan.append(v + 1).append(' ').append(nodes[v].program.merged + 1).append('\n');
        System.out.print(plan);
    }
}
