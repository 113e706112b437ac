import java.io.*;
import java.util.concurrent.LinkedBlockingQueue;

/** A store in Java on the bench by lines (docs/LINES.md), in one process: each thread of the bench is one here, and answers its own calls. */
abstract class Lines extends Thread {
    private static final PrintStream out = System.out;
    private final LinkedBlockingQueue<String[]> calls = new LinkedBlockingQueue<>();

    /** The answer to a call, as "V 7"; `words` are the line's. */
    abstract String answer(String[] words) throws Exception;

    public void run() {
        try {
            for (String[] words = calls.take();; words = calls.take()) {
                out.print(words[0] + " " + answer(words) + "\n");
                out.flush();
            }
        } catch (Throwable failure) {
            failure.printStackTrace();
            Runtime.getRuntime().halt(1);
        }
    }

    /** Hands each line to its thread. What a store prints besides goes to standard error. */
    static void serve(Lines[] threads) throws IOException {
        System.setOut(System.err);
        for (Lines thread : threads)
            thread.start();
        BufferedReader in = new BufferedReader(new InputStreamReader(System.in));
        for (String line; (line = in.readLine()) != null;)
            threads[line.charAt(0) - '0'].calls.add(line.split(" "));
        Runtime.getRuntime().halt(0);
    }
}
