// A node with a clock: the talking is done, the algorithm is yours. javac RoundsNode.java, then
// java -Xmx64m -cp DIR RoundsNode. docs/learn/PROTOCOL.md says what the words mean.
import java.io.BufferedReader;
import java.io.IOException;
import java.io.InputStreamReader;
import java.math.BigInteger;
import java.util.HashMap;
import java.util.Map;

class RoundsNode {
    /** Your own data: degree, nodes, delta, bars, forests, last. The identifier has up to 128 binary digits. */
    final Map<String, Integer> own = new HashMap<>();
    BigInteger identifier;
    /** By port, the payload that came in this pulse: its word and its number. */
    final Map<Integer, String[]> inbox = new HashMap<>();
    int pulse;
    final StringBuilder answer = new StringBuilder();

    void put(int port, String payload) {
        answer.append("put ").append(port).append(' ').append(payload).append('\n');
    }

    /** What the node does in this pulse; in pulse 0 the inbox is empty. */
    void makePulse() {
        for (int port = 0; pulse == 0 && port < own.get("degree"); port++) put(port, "hello " + identifier);
        // yours: put(port, "label 0"), and in the last pulse answer.append("channel 2\n")
    }

    /** A line of a message. A line `barred N C1 C2 ..` is left to you. */
    void read(String[] words) {
        if (words[0].equals("identifier")) identifier = new BigInteger(words[1]);
        if (words[0].matches("degree|nodes|delta|bars|forests|last")) own.put(words[0], Integer.parseInt(words[1]));
        if (words[0].equals("pulse")) pulse = Integer.parseInt(words[1]);
        if (words[0].equals("take")) inbox.put(Integer.parseInt(words[1]), new String[] {words[2], words[3]});
    }

    public static void main(String[] none) throws IOException {
        BufferedReader in = new BufferedReader(new InputStreamReader(System.in));
        Map<String, RoundsNode> nodes = new HashMap<>();
        String which = "only";                          // with --one-process a line `to K` says which node is meant
        for (String line; (line = in.readLine()) != null; ) {
            String[] words = line.split(" ");
            if (words[0].equals("to")) which = words[1];
            RoundsNode node = nodes.computeIfAbsent(which, k -> new RoundsNode());
            node.read(words);
            if (!words[0].equals("end")) continue;
            node.makePulse();
            node.inbox.clear();
            System.out.print(node.answer.append("end\n"));
            System.out.flush();                         // without it the answer waits in a buffer
            node.answer.setLength(0);
        }
    }
}
