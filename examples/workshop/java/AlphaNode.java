// A node without a clock, under synchroniser alpha, in Java: javac AlphaNode.java, then java -Xmx64m -cp DIR AlphaNode
import java.io.BufferedReader;
import java.io.IOException;
import java.io.InputStreamReader;
import java.math.BigInteger;
import java.util.ArrayList;
import java.util.List;
import java.util.Set;
import java.util.TreeSet;

class AlphaNode {
    static final BigInteger TWO = BigInteger.TWO;

    /** What is known of the neighbour at a port; `forest` is that of the edge, and -1 before it is known. */
    static class Port {
        boolean waits, safe, earlySafe, isParent;
        String[] present, early;
        int forest = -1;
    }

    // The colouring.
    static BigInteger name;
    static BigInteger[] colours, before;
    static int degree, delta, bars, forests, last, width, merged, old;
    static final Set<Integer> barred = new TreeSet<>(), taken = new TreeSet<>();
    static Port[] ports;

    // The synchroniser.
    static int pulse;
    static boolean said;
    static final StringBuilder answer = new StringBuilder();

    static void put(int port, String wire) {
        answer.append("put ").append(port).append(' ').append(wire).append('\n');
    }

    static void send(int port, String word, Object number) {
        put(port, "payload " + pulse + " " + word + " " + number);
        ports[port].waits = true;
    }

    static int leastFree() {
        int colour = 0;
        while (barred.contains(colour) || taken.contains(colour)) colour++;
        return colour;
    }

    static BigInteger leastBut(BigInteger a, BigInteger b) {
        BigInteger colour = BigInteger.ZERO;
        while (colour.equals(a) || colour.equals(b)) colour = colour.add(BigInteger.ONE);
        return colour;
    }

    static BigInteger number(String[] payload) {
        return new BigInteger(payload[1]);
    }

    static void orient() {
        for (Port port : ports) {
            port.isParent = number(port.present).compareTo(name) > 0;
            if (!port.isParent) continue;
            port.forest = 0;
            for (Port other : ports) {
                BigInteger theirs = number(other.present);
                if (theirs.compareTo(name) > 0 && theirs.compareTo(number(port.present)) < 0) port.forest++;
            }
        }
        for (int k = 0; k < degree; k++) if (ports[k].isParent) send(k, "label", ports[k].forest);
    }

    static void toChildren() {
        for (int k = 0; k < degree; k++) if (!ports[k].isParent) send(k, "colour", colours[ports[k].forest]);
    }

    static void recolour(int forest) {
        BigInteger own = colours[forest], above = null;
        for (Port port : ports) if (port.isParent && port.forest == forest) above = number(port.present);
        if (pulse <= 6) {
            int digit = above == null ? 0 : own.xor(above).getLowestSetBit();
            colours[forest] = BigInteger.valueOf(2L * digit + (own.testBit(digit) ? 1 : 0));
        } else if (pulse % 2 == 1) {
            before[forest] = own;
            colours[forest] = above == null ? leastBut(own, own) : above;
        } else if (own.intValue() == 9 - pulse / 2) {               // 5, 4 and 3 in the pulses 8, 10 and 12
            colours[forest] = leastBut(before[forest], above == null ? before[forest] : above);
        }
    }

    static void merge(int t) {
        int forest = t / (3 * width), step = t % (3 * width);
        if (step == 0) {
            old = merged;
            taken.clear();
        }
        for (Port port : ports) if (port.present != null) taken.add(Integer.valueOf(port.present[1]));
        if (colours[forest].intValue() != step / width || old != step % width) return;
        merged = leastFree();
        for (int k = 0; k < degree && step < 3 * width - 1; k++) {
            if (ports[k].forest <= forest) send(k, "chosen", merged);
        }
    }

    static void makeRound() {
        if (pulse == 0) {
            for (int k = 0; k < degree; k++) send(k, "hello", name);
        } else if (pulse == 1) {
            orient();
        } else if (pulse <= 12) {
            for (Port port : ports) if (pulse == 2 && !port.isParent) port.forest = number(port.present).intValue();
            for (int f = 0; f < forests; f++) {
                if (pulse == 2) colours[f] = name; else recolour(f);
            }
            if (pulse < 12) toChildren();
        } else {
            merge(pulse - 13);
        }
    }

    static void enter() {
        makeRound();
        if (pulse == last) {
            for (int k = 0; k < degree; k++) put(k, "close");
            answer.append("channel ").append(merged + 1).append('\n');
        }
        saySafeIfItIs();
    }

    static void saySafeIfItIs() {
        for (Port port : ports) if (port.waits) return;
        if (pulse == last) return;
        said = true;
        for (int k = 0; k < degree; k++) put(k, "safe " + pulse);
    }

    static boolean canPulse() {
        for (Port port : ports) if (!port.safe) return false;
        return said && pulse < last;
    }

    static void goOn() {
        while (canPulse()) {
            pulse++;
            said = false;
            answer.append("pulse ").append(pulse).append('\n');
            enter();                            // with the inbox of this pulse, which `present` still has
            for (Port port : ports) {
                port.present = port.early;
                port.early = null;
                port.safe = port.earlySafe;
                port.earlySafe = false;
            }
        }
    }

    static void take(String[] words) {
        int at = Integer.parseInt(words[1]);
        Port port = ports[at];
        boolean isEarly = !words[2].equals("close") && Integer.parseInt(words[3]) != pulse;
        if (words[2].equals("payload")) {
            String[] payload = {words[4], words[5]};
            if (isEarly) port.early = payload; else port.present = payload;
            put(at, "ack " + words[3]);
        } else if (words[2].equals("ack")) {
            port.waits = false;
            saySafeIfItIs();
        } else if (words[2].equals("safe")) {
            if (isEarly) port.earlySafe = true; else port.safe = true;
        }
        goOn();
    }

    static void start(List<String[]> message) {
        for (String[] words : message) {
            int number = words[0].matches("degree|delta|bars|forests|last") ? Integer.parseInt(words[1]) : 0;
            switch (words[0]) {
                case "identifier": name = new BigInteger(words[1]); break;
                case "degree": degree = number; break;
                case "delta": delta = number; break;
                case "bars": bars = number; break;
                case "forests": forests = number; break;
                case "last": last = number; break;
                case "barred": for (int k = 2; k < words.length; k++) barred.add(Integer.parseInt(words[k]) - 1); break;
                default: break;
            }
        }
        width = delta + bars + 1;
        colours = new BigInteger[forests];
        before = new BigInteger[forests];
        ports = new Port[degree];
        for (int k = 0; k < degree; k++) ports[k] = new Port();
        merged = leastFree();
        enter();
        goOn();
    }

    public static void main(String[] none) throws IOException {
        BufferedReader in = new BufferedReader(new InputStreamReader(System.in));
        List<String[]> message = new ArrayList<>();
        for (String line; (line = in.readLine()) != null; ) {
            if (!line.equals("end")) {
                message.add(line.split(" "));
                continue;
            }
            if (message.get(0)[0].equals("workshop")) start(message); else take(message.get(0));
            System.out.print(answer.append("end\n"));
            System.out.flush();                 // without it the answer waits in a buffer
            answer.setLength(0);
            message.clear();
        }
    }
}
