import java.util.concurrent.CountDownLatch;
import java.util.concurrent.locks.ReentrantLock;

/**
 * A bank that predicts its own deadlock: two threads move money between two accounts, in opposite directions. The run ends
 * well, as the second thread starts when the first one is done; no event tells so, and another run deadlocks.
 *
 * <pre>
 * cc -shared -fPIC -Ilibrary -I$JAVA_HOME/include -I$JAVA_HOME/include/linux library/examples/goodlock_jni.c \
 *     prebuilt/libgoodlock.a -lpthread -o libgoodlock_jni.so
 * javac -d . library/examples/Bank.java library/examples/Goodlock.java
 * java -Djava.library.path=. Bank
 * </pre>
 *
 * (tools/goodlock-java records any Java program, without a change. This is for a program that records itself.)
 */
final class Bank {
    /** A lock with its number beside it. */
    static final class Account {
        final ReentrantLock lock = new ReentrantLock();
        final int number;
        int balance = 100;

        Account(long session, String name) {
            number = Goodlock.lock(session, name);
        }

        void take(long lane, int place) {
            Goodlock.record(lane, Goodlock.ACQUIRE, number, place); // before the call that may wait
            lock.lock();
        }

        void give(long lane, int place) {
            Goodlock.record(lane, Goodlock.RELEASE, number, place); // before the lock is given up
            lock.unlock();
        }
    }

    static final int THREADS = 3; // the main thread, the saver and the spender
    static final int RING = 256;

    static int first;
    static int second;
    static int end;

    static void transfer(long lane, Account from, Account to, int amount) {
        from.take(lane, first);
        to.take(lane, second);
        from.balance -= amount;
        to.balance += amount;
        to.give(lane, end);
        from.give(lane, end);
    }

    static void tell(long lane, Account from, Account to, CountDownLatch isDone) {
        for (int i = 0; i < 1000; i++) {
            transfer(lane, from, to, i % 2 == 0 ? 1 : -1);
        }
        Goodlock.close(lane);
        isDone.countDown();
    }

    /**
     * The collecting thread: pulls until every lane has ended, with short sleeps while all are empty. A pull may take what
     * all rings hold, so that a busy thread keeps no other one waiting.
     */
    static void collect(long session) {
        try {
            for (long ended = 0; ended < THREADS; ) {
                long pulled = Goodlock.pull(session, THREADS * RING);
                ended += pulled >>> 32;
                if ((int) pulled == 0) {
                    Thread.sleep(0, 20000);
                }
            }
        } catch (InterruptedException error) {
            throw new IllegalStateException(error);
        }
    }

    public static void main(String[] words) throws InterruptedException {
        long session = Goodlock.open(1, THREADS, RING);
        Account savings = new Account(session, "savings");
        Account current = new Account(session, "current");
        first = Goodlock.place(session, "transfer, first");
        second = Goodlock.place(session, "transfer, second");
        end = Goodlock.place(session, "transfer, end");
        long[] lanes = new long[THREADS];
        for (int i = 0; i < THREADS; i++) {
            lanes[i] = Goodlock.lane(session); // of thread i
        }
        Thread collector = new Thread(() -> collect(session));
        collector.start(); // the session is the collector's from here

        Thread[] threads = new Thread[THREADS];
        for (int i = 1; i < THREADS; i++) {
            long lane = lanes[i];
            Account from = i == 1 ? current : savings;
            Account to = i == 1 ? savings : current;
            CountDownLatch isDone = new CountDownLatch(1);
            Goodlock.record(lanes[0], Goodlock.FORK, i, 0); // before the thread starts
            threads[i] = new Thread(() -> tell(lane, from, to, isDone));
            threads[i].start();
            isDone.await();
        }
        for (int i = 1; i < THREADS; i++) {
            threads[i].join();
            Goodlock.record(lanes[0], Goodlock.JOIN, i, 0); // after it was waited for
        }
        Goodlock.close(lanes[0]);

        collector.join(); // .. and ours again
        for (long lane : lanes) {
            Goodlock.handIn(session, lane);
        }
        System.out.print(Goodlock.settle(session));
        System.exit(savings.balance + current.balance == 200 ? 0 : 1);
    }
}
