import com.sun.net.httpserver.HttpExchange;
import com.sun.net.httpserver.HttpServer;
import java.io.IOException;
import java.net.InetSocketAddress;
import java.util.HashMap;
import java.util.Map;
import java.util.concurrent.ExecutorService;
import java.util.concurrent.Executors;
import java.util.concurrent.locks.ReentrantReadWriteLock;

/** A web server with four threads, which counts its pages under a monitor and a reader-writer lock; it ends after a number of requests. */
public class Web {
    private final Map<String, Integer> pages = new HashMap<>();
    private final ReentrantReadWriteLock lock = new ReentrantReadWriteLock();
    private final HttpServer server;
    private final ExecutorService pool = Executors.newFixedThreadPool(4);
    private int left;

    Web(int port, int requests) throws IOException {
        left = requests;
        server = HttpServer.create(new InetSocketAddress("127.0.0.1", port), 64);
        server.setExecutor(pool);
        server.createContext("/", this::answer);
    }

    private int count(String page) {
        lock.writeLock().lock();
        try {
            return pages.merge(page, 1, Integer::sum);
        } finally {
            lock.writeLock().unlock();
        }
    }

    private synchronized boolean isLast(String page) {
        count(page);
        left--;
        return left == 0;
    }

    private void answer(HttpExchange exchange) throws IOException {
        String page = exchange.getRequestURI().getPath();
        boolean last = isLast(page);
        byte[] text;
        lock.readLock().lock();
        try {
            text = (page + ": " + pages.get(page)).getBytes();
        } finally {
            lock.readLock().unlock();
        }
        exchange.sendResponseHeaders(200, text.length);
        exchange.getResponseBody().write(text);
        exchange.close();
        if (last) {
            new Thread(() -> {
                server.stop(0);
                pool.shutdown();
            }).start();
        }
    }

    public static void main(String[] words) throws IOException {
        new Web(Integer.parseInt(words[0]), Integer.parseInt(words[1])).server.start();
    }
}
