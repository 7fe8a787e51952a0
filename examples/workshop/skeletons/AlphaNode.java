// A node without a clock: the talking is done, the synchroniser is yours. javac AlphaNode.java, then
// java -Xmx64m -cp DIR AlphaNode. docs/learn/PROTOCOL.md says what the words mean.
import java.io.BufferedReader;
import java.io.IOException;
import java.io.InputStreamReader;
import java.math.BigInteger;
import java.util.Arrays;
import java.util.HashMap;
import java.util.Map;

class AlphaNode {
    /** Your own data: degree, nodes, delta, bars, forests, last. The identifier has up to 128 binary digits. */
    final Map<String, Integer> own = new HashMap<>();
    BigInteger identifier;
    final StringBuilder answer = new StringBuilder();

    void put(int port, String wire) {
        answer.append("put ").append(port).append(' ').append(wire).append('\n');
    }

    /** What the node does at its start, in pulse 0. */
    void start() {
        for (int port = 0; port < own.get("degree"); port++) put(port, "payload 0 hello " + identifier);
    }

    /** What it does after it has taken a wire: wire[0] is payload, ack, safe or close. */
    void take(int port, String[] wire) {
        // yours: put(port, "ack 0"), answer.append("pulse 1\n"), answer.append("channel 2\n") and so on
    }

    /** A line of a message. A line `barred N C1 C2 ..` is left to you. */
    void read(String[] words) {
        if (words[0].equals("identifier")) identifier = new BigInteger(words[1]);
        if (words[0].matches("degree|nodes|delta|bars|forests|last")) own.put(words[0], Integer.parseInt(words[1]));
        if (words[0].equals("take")) take(Integer.parseInt(words[1]), Arrays.copyOfRange(words, 2, words.length));
    }

    public static void main(String[] none) throws IOException {
        BufferedReader in = new BufferedReader(new InputStreamReader(System.in));
        Map<String, AlphaNode> nodes = new HashMap<>();
        String which = "only";                          // with --one-process a line `to K` says which node is meant
        boolean isFirst = false;
        for (String line; (line = in.readLine()) != null; ) {
            String[] words = line.split(" ");
            if (words[0].equals("to")) which = words[1];
            if (words[0].equals("workshop")) isFirst = true;
            AlphaNode node = nodes.computeIfAbsent(which, k -> new AlphaNode());
            node.read(words);
            if (!words[0].equals("end")) continue;
            if (isFirst) node.start();
            isFirst = false;
            System.out.print(node.answer.append("end\n"));
            System.out.flush();                         // without it the answer waits in a buffer
            node.answer.setLength(0);
        }
    }
}
