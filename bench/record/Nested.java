/** Four threads, each with two nested locks of its own. */
public class Nested {
    public static void main(String[] words) throws InterruptedException {
        int turns = Integer.parseInt(words[0]);
        Thread[] threads = new Thread[4];
        for (int i = 0; i < 4; i++) {
            threads[i] = new Thread(() -> {
                Object outer = new Object();
                Object inner = new Object();
                int count = 0;
                for (int turn = 0; turn < turns; turn++) {
                    synchronized (outer) {
                        synchronized (inner) {
                            count++;
                        }
                    }
                }
                if (count != turns) {
                    throw new IllegalStateException();
                }
            });
            threads[i].start();
        }
        for (Thread thread : threads) {
            thread.join();
        }
    }
}
