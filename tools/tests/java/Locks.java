import java.util.ArrayList;
import java.util.Date;
import java.util.List;
import java.util.Random;
import java.util.concurrent.ConcurrentLinkedQueue;
import java.util.concurrent.CountDownLatch;
import java.util.concurrent.ExecutorService;
import java.util.concurrent.Executors;
import java.util.concurrent.TimeUnit;
import java.util.concurrent.atomic.AtomicIntegerArray;
import java.util.concurrent.locks.Condition;
import java.util.concurrent.locks.Lock;
import java.util.concurrent.locks.ReadWriteLock;
import java.util.concurrent.locks.ReentrantLock;
import java.util.concurrent.locks.ReentrantReadWriteLock;
import java.util.concurrent.locks.StampedLock;
import java.util.function.BooleanSupplier;
import java.util.function.Consumer;
import java.util.function.Supplier;

/** Programs with known traces, by name. Marks in comments name their lines. */
public class Locks {
    interface Program {
        void run() throws Exception;
    }

    static final Object a = new Object(); // @a
    static final Object b = new Object(); // @b
    static final ReentrantLock again = new ReentrantLock(); // @again
    static String[] words;

    public static void main(String[] arguments) throws Exception {
        words = arguments;
        Locks.class.getDeclaredMethod(arguments[0]).invoke(null);
    }

    /** Runs each in a thread of its own, one after the other, with nothing that goodlock takes for an order. */
    static void runInTurn(Program... programs) throws InterruptedException {
        CountDownLatch[] turns = new CountDownLatch[programs.length + 1];
        for (int i = 0; i < turns.length; i++) {
            turns[i] = new CountDownLatch(1);
        }
        List<Thread> threads = new ArrayList<>();
        for (int i = 0; i < programs.length; i++) {
            int turn = i;
            threads.add(new Thread(() -> {
                try {
                    turns[turn].await();
                    programs[turn].run();
                } catch (Exception failure) {
                    failure.printStackTrace();
                    Runtime.getRuntime().halt(9);
                } finally {
                    turns[turn + 1].countDown();
                }
            }));
        }
        for (Thread thread : threads) {
            thread.start();
        }
        turns[0].countDown();
        for (Thread thread : threads) {
            thread.join();
        }
    }

    static void both(Object first, Object second) {
        synchronized (first) {
            synchronized (second) {
                words[0].length();
            }
        }
    }

    static void both(Lock first, Lock second) {
        first.lock();
        second.lock();
        second.unlock();
        first.unlock();
    }

    // --- Monitors

    static void monitors() {
        synchronized (a) { // @monitor_a
            synchronized (b) { // @monitor_b
                words[0].length();
            } // @monitor_b_end
        } // @monitor_a_end
    }

    static void opposite() throws Exception {
        runInTurn(() -> both(a, b), () -> both(b, a));
    }

    static void gate() throws Exception {
        Object gate = new Object();
        runInTurn(() -> {
            synchronized (gate) {
                both(a, b);
            }
        }, () -> {
            synchronized (gate) {
                both(b, a);
            }
        });
    }

    static void joinedInBetween() throws Exception {
        Thread first = new Thread(() -> both(a, b));
        first.start();
        first.join();
        Thread second = new Thread(() -> both(b, a));
        second.start();
        second.join();
    }

    static void threeInARing() throws Exception {
        Object c = new Object();
        runInTurn(() -> both(a, b), () -> both(b, c), () -> both(c, a));
    }

    static void ownLockTwice() throws Exception {
        runInTurn(() -> both(a, a), () -> both(a, a));
    }

    static class Account {
        int money;

        synchronized int add(int more) { // @add_declared
            money += more; // @add
            return money; // @add_end
        }

        synchronized void fail() {
            money--; // @fail
            throw new IllegalStateException(); // @fail_end
        }

        static synchronized long count(int n) {
            if (n > 1) { // @count
                return n; // @count_early
            }
            return 1; // @count_end
        }

        synchronized void transfer(Account other) {
            other.add(1); // @transfer
        } // @transfer_end
    }

    static void synchronizedMethods() {
        Account account = new Account();
        account.add(1); // @calls_add
        try {
            account.fail(); // @calls_fail
        } catch (IllegalStateException expected) {
            account.money = 0;
        }
        Account.count(2); // @calls_count
        synchronized (b) { // @count_b
            Account.count(1);
        } // @count_b_end
        synchronized (Account.class) { // @class_block
            words[0].length();
        } // @class_block_end
    }

    static void bank() throws Exception {
        Account one = new Account();
        Account two = new Account();
        runInTurn(() -> one.transfer(two), () -> two.transfer(one));
    }

    static void locksOfObjects() {
        Object[] locks = new Object[3];
        for (int i = 0; i < 3; i++) {
            locks[i] = new Object(); // @many_made
        }
        synchronized (locks[2]) { // @many_2
            synchronized (locks[0]) { // @many_0
                words[0].length();
            } // @many_0_end
        } // @many_2_end
        Account[] accounts = {new Account(), new Account()};
        accounts[1].add(1);
        accounts[0].add(1);
    }

    static void reentrant() {
        synchronized (a) { // @again_1
            synchronized (a) { // @again_2
                words[0].length();
            } // @again_2_end
            again.lock(); // @again_3
            again.lock(); // @again_4
            again.unlock(); // @again_5
            again.unlock(); // @again_6
        } // @again_1_end
    }

    static void exceptions() {
        try {
            synchronized (a) { // @raises_a
                synchronized (b) { // @raises_b
                    Integer.parseInt(words[0]);
                }
            } // @raises_end
        } catch (NumberFormatException expected) {
            synchronized (b) { // @after_b
                words[0].length();
            } // @after_b_end
        }
        try {
            synchronized ((Object) null) {
                words[0].length();
            }
        } catch (NullPointerException expected) {
            words[0].length();
        }
    }

    // --- Waiting

    static void waits() throws Exception {
        Thread other = new Thread(() -> {
            synchronized (a) { // @notify
                a.notifyAll();
            } // @notify_end
        });
        synchronized (a) { // @waits
            other.start(); // @waits_start
            a.wait(); // @wait
            synchronized (a) { // @waits_again
                a.wait(1); // @wait_timed
            } // @waits_again_end
            a.wait(1, 1); // @wait_nanos
        } // @waits_end
        other.join(); // @waits_join
    }

    static void waitThatTakesAgain() throws Exception {
        runInTurn(() -> {
            synchronized (a) {
                synchronized (b) {
                    b.wait(1);
                }
            }
        }, () -> both(b, a));
    }

    static void refusedWait() throws Exception {
        try {
            a.wait();
        } catch (IllegalMonitorStateException expected) {
            synchronized (b) { // @refused_b
                words[0].length();
            } // @refused_b_end
        }
    }

    static void conditions() throws Exception {
        Condition condition = again.newCondition();
        again.lock(); // @condition_lock
        condition.await(1, TimeUnit.MILLISECONDS); // @await
        condition.awaitNanos(1); // @await_nanos
        condition.awaitUntil(new Date()); // @await_until
        again.unlock(); // @condition_unlock
        try {
            condition.await();
        } catch (IllegalMonitorStateException expected) {
            words[0].length();
        }
    }

    // --- Locks of java.util.concurrent.locks

    static void reentrantLocks() throws Exception {
        Lock lock = new ReentrantLock(true); // @lock_made
        lock.lock(); // @lock
        lock.unlock(); // @unlock
        lock.lockInterruptibly(); // @lock_interruptibly
        lock.unlock(); // @unlock_2
        lock.tryLock(); // @try
        lock.unlock(); // @unlock_3
        lock.tryLock(1, TimeUnit.SECONDS); // @timed
        lock.unlock(); // @unlock_4
    }

    static void failing() throws Exception {
        again.lock(); // @failing_lock
        Thread other = new Thread(() -> {
            try {
                again.tryLock();
                again.tryLock(1, TimeUnit.MILLISECONDS);
                Thread.currentThread().interrupt();
                again.lockInterruptibly();
            } catch (InterruptedException expected) {
                synchronized (b) { // @failing_b
                    words[0].length();
                } // @failing_b_end
            }
            try {
                again.unlock();
            } catch (IllegalMonitorStateException expected) {
                words[0].length();
            }
        });
        other.start(); // @failing_start
        other.join(); // @failing_join
        again.unlock(); // @failing_unlock
    }

    static void opposite_locks() throws Exception {
        Lock other = new ReentrantLock();
        runInTurn(() -> both(again, other), () -> both(other, again));
    }

    static void tries() throws Exception {
        Lock other = new ReentrantLock();
        runInTurn(() -> both(again, other), () -> {
            other.lock();
            if (again.tryLock()) {
                again.unlock();
            }
            if (again.tryLock(1, TimeUnit.SECONDS)) {
                again.unlock();
            }
            other.unlock();
        });
    }

    static void readersAndWriters() throws Exception {
        ReentrantReadWriteLock lock = new ReentrantReadWriteLock(); // @rw_made
        lock.readLock().lock(); // @read
        lock.readLock().lock(); // @read_2
        lock.readLock().unlock(); // @read_2_end
        lock.readLock().unlock(); // @read_end
        ReadWriteLock same = lock;
        Lock write = same.writeLock();
        write.lock(); // @write
        same.readLock().lock(); // @downgrade
        write.unlock(); // @write_end
        same.readLock().unlock(); // @downgrade_end
        same.readLock().tryLock(); // @try_read
        same.readLock().unlock(); // @try_read_end
        write.tryLock(1, TimeUnit.SECONDS); // @timed_write
        write.unlock(); // @timed_write_end
    }

    static void readersDontWait() throws Exception {
        ReadWriteLock one = new ReentrantReadWriteLock();
        ReadWriteLock two = new ReentrantReadWriteLock();
        runInTurn(() -> both(one.readLock(), two.readLock()), () -> both(two.readLock(), one.readLock()));
    }

    static void writersWait() throws Exception {
        ReadWriteLock one = new ReentrantReadWriteLock();
        ReadWriteLock two = new ReentrantReadWriteLock();
        runInTurn(() -> both(one.readLock(), two.writeLock()), () -> both(two.readLock(), one.writeLock()));
    }

    static void stamped() throws Exception {
        StampedLock lock = new StampedLock(); // @stamped_made
        long stamp = lock.writeLock(); // @stamped_write
        lock.unlockWrite(stamp); // @stamped_write_end
        stamp = lock.readLock(); // @stamped_read
        stamp = lock.tryConvertToWriteLock(stamp); // @convert
        lock.unlock(stamp); // @convert_end
        stamp = lock.tryReadLock(1, TimeUnit.SECONDS); // @stamped_timed
        lock.tryWriteLock();
        lock.unlockRead(stamp); // @stamped_timed_end
        stamp = lock.tryOptimisticRead();
        lock.validate(stamp);
        lock.readLockInterruptibly(); // @stamped_interruptibly
        lock.tryUnlockRead(); // @stamped_try_unlock
        lock.asWriteLock().lock(); // @view
        lock.asWriteLock().unlock(); // @view_end
    }

    /** A class of locks that has a method of its own in place of one. */
    static class Counted extends ReentrantLock {
        int count;

        Counted() {
            super(); // @counted_made
        }

        @Override
        public void lock() {
            super.lock(); // @counted_lock
            count++;
        }
    }

    static void classesOfLocks() throws Exception {
        Counted lock = new Counted();
        lock.lock();
        lock.unlock(); // @counted_unlock
        ((Lock) lock).lock();
        lock.tryLock(1, TimeUnit.SECONDS); // @counted_try
        lock.unlock(); // @counted_unlock_2
        lock.unlock(); // @counted_unlock_3
    }

    /** A class of locks that makes other ones, also before it is made itself. */
    static class Nested extends ReentrantLock {
        final Lock inner = new ReentrantLock(); // @nested_inner

        Nested() {
            super(isFair(new ReentrantLock())); // @nested_made
        }

        static boolean isFair(Lock lock) {
            lock.lock(); // @nested_argument_lock
            lock.unlock(); // @nested_argument_unlock
            return true;
        }
    }

    static void locksOfClassesOfLocks() {
        Nested lock = new Nested();
        lock.inner.lock(); // @nested_inner_lock
        lock.lock(); // @nested_lock
        lock.unlock(); // @nested_unlock
        lock.inner.unlock(); // @nested_inner_unlock
    }

    /** A class of locks that stands before the interruptible acquire. */
    static class Patient extends ReentrantLock {
        Patient() {
            super(); // @patient_made
        }

        @Override
        public void lockInterruptibly() throws InterruptedException {
            super.lockInterruptibly(); // @patient_lock
        }
    }

    static void classesOfInterruptibleLocks() throws Exception {
        Patient lock = new Patient();
        lock.lockInterruptibly();
        ((Lock) lock).lockInterruptibly();
        lock.unlock(); // @patient_unlock
        lock.unlock(); // @patient_unlock_2
        Thread.currentThread().interrupt();
        try {
            lock.lockInterruptibly();
        } catch (InterruptedException expected) {
            words[0].length();
        }
    }

    /** An object that is a lock has a monitor, too: these are two locks. */
    static void monitorsOfLocks() throws Exception {
        synchronized (again) { // @monitor_of_lock
            again.lock(); // @lock_in_its_monitor
            again.notifyAll();
            again.wait(1); // @wait_of_lock
            again.unlock(); // @unlock_in_its_monitor
        } // @monitor_of_lock_end
        again.lock(); // @lock_around_its_monitor
        synchronized (again) { // @monitor_in_its_lock
            words[0].length();
        } // @monitor_in_its_lock_end
        again.unlock(); // @unlock_around_its_monitor
    }

    static void conditionOfWriteLock() throws Exception {
        Lock write = new ReentrantReadWriteLock().writeLock(); // @write_made
        Condition condition = write.newCondition();
        write.lock(); // @write_lock
        condition.await(1, TimeUnit.MILLISECONDS); // @write_await
        write.unlock(); // @write_unlock
    }

    interface Action {
        void run() throws InterruptedException;
    }

    static void references() throws Exception {
        Supplier<Lock> maker = ReentrantLock::new; // @reference_new
        Lock lock = maker.get();
        Action first = lock::lock; // @reference_lock
        first.run();
        Action second = lock::lockInterruptibly; // @reference_interruptibly
        second.run();
        BooleanSupplier third = lock::tryLock; // @reference_try
        third.getAsBoolean();
        Action last = lock::unlock; // @reference_unlock
        last.run();
        Consumer<Lock> same = Lock::unlock; // @reference_unbound
        same.accept(lock);
        Thread thread = new Worker();
        thread.start(); // @reference_start
        Action end = thread::join; // @reference_join
        end.run();
        ((Runnable & java.io.Serializable) lock::unlock).run(); // a reference that can be written stays as it is
    }

    /** Of objects whose class has the method from another one. */
    static void referencesOfClasses() throws Exception {
        Counted lock = new Counted();
        BooleanSupplier first = lock::tryLock; // @class_reference_try
        first.getAsBoolean();
        Action last = lock::unlock; // @class_reference_unlock
        last.run();
        Worker worker = new Worker();
        worker.start(); // @class_reference_start
        Action end = worker::join; // @class_reference_join
        end.run();
    }

    // --- Threads

    static class Worker extends Thread {
        @Override
        public void run() {
            words[0].length();
        }
    }

    static class Task implements Runnable {
        @Override
        public void run() {
            words[0].length();
        }
    }

    static void threads() throws Exception {
        Thread parent = new Thread(() -> {
            Thread child = new Worker();
            child.start(); // @child_start
            try {
                child.join(); // @child_join
            } catch (InterruptedException never) {
                throw new IllegalStateException(never);
            }
        });
        Thread[] threads = {parent, new Thread(new Task()), new Thread(new Task(), "named")};
        for (Thread thread : threads) {
            thread.start(); // @threads_start
            thread.join(60_000); // @threads_join
        }
        CountDownLatch end = new CountDownLatch(1);
        Thread late = new Thread(() -> {
            try {
                end.await();
            } catch (InterruptedException never) {
                throw new IllegalStateException(never);
            }
        });
        late.join();
        late.start(); // @late_start
        late.join(1);
        try {
            late.start();
        } catch (IllegalThreadStateException expected) {
            end.countDown();
        }
        late.join(60_000, 1); // @late_join
    }

    static void longNames() throws Exception {
        String name = "x" + "n\u00e4".repeat(50_000);
        for (Thread thread : new Thread[] {new Thread(Locks::monitors, name), new Thread(Locks::monitors, "short|\n")}) {
            thread.start(); // @long_start
            thread.join(); // @long_join
        }
    }

    static void pool() throws Exception {
        ExecutorService pool = Executors.newFixedThreadPool(1);
        pool.submit(Locks::monitors).get(); // @pool_submit
        pool.shutdown();
        pool.awaitTermination(1, TimeUnit.MINUTES);
    }

    static void racing() throws Exception {
        Thread[] threads = new Thread[3];
        for (int i = 0; i < 3; i++) {
            threads[i] = new Thread(() -> {
                for (int n = 0; n < 3; n++) {
                    Object own = new Object(); // @own
                    synchronized (own) { // @walk
                        words[0].length();
                    } // @walk_end
                }
            });
        }
        for (Thread thread : threads) {
            thread.start(); // @racing_start
        }
        for (Thread thread : threads) {
            thread.join(); // @racing_join
        }
    }

    // --- Repeats and places

    static void repeats() throws Exception {
        for (int i = 0; i < 5; i++) {
            monitors();
        }
        Thread thread = new Worker();
        thread.start(); // @repeats_start
        monitors();
        thread.join(); // @repeats_join
        for (int i = 0; i < 100_000; i++) {
            monitors();
        }
    }

    static void frames() {
        outer(); // @frames_call
    }

    static void outer() {
        monitors(); // @frames_outer
    }

    static void randomEvents() throws Exception {
        Random choose = new Random(Long.parseLong(words[1]));
        Lock[] locks = new Lock[6];
        ReadWriteLock shared = new ReentrantReadWriteLock();
        for (int i = 0; i < 6; i++) {
            locks[i] = i == 0 ? shared.readLock() : new ReentrantLock();
        }
        List<Lock> held = new ArrayList<>();
        for (int i = 0; i < 6000; i++) {
            if (!held.isEmpty() && choose.nextInt(10) < 5) {
                held.remove(choose.nextInt(10) < 3 ? choose.nextInt(held.size()) : held.size() - 1).unlock();
            } else if (held.size() < 5) {
                Lock lock = locks[choose.nextInt(6)];
                if (choose.nextInt(5) == 0) {
                    lock.tryLock();
                } else {
                    lock.lock();
                }
                held.add(lock);
            }
            if (choose.nextInt(500) == 0) {
                Thread thread = new Worker();
                thread.start();
                thread.join();
            }
        }
    }

    static void manyLocks() {
        ReentrantLock[] locks = new ReentrantLock[66];
        for (int i = 0; i < 66; i++) {
            locks[i] = new ReentrantLock(); // @beyond_made
        }
        for (int i = 0; i < 66; i++) {
            locks[i].lock(); // @beyond
        }
        for (int i = 65; i >= 0; i--) {
            locks[i].unlock(); // @beyond_end
        }
    }

    /** As where a release is forgotten: the thread never has to wait for itself. */
    static void leaks() {
        for (int i = 0; i < 1_000_002; i++) {
            again.lock(); // @leaks_lock
        }
        try {
            Thread.currentThread().interrupt();
            again.lockInterruptibly();
        } catch (InterruptedException expected) {
            words[0].length();
        }
        for (int i = 0; i < 1_000_002; i++) {
            again.unlock(); // @leaks_unlock
        }
    }

    /** More locks than a table begins with, most of them collected soon. */
    static void manyObjects() {
        for (int i = 0; i < 200_000; i++) {
            Object own = new Object();
            synchronized (own) { // @objects
                words[0].length();
            }
        }
    }

    // --- Endings

    static void deadlock() throws Exception {
        CountDownLatch meeting = new CountDownLatch(2);
        Thread other = new Thread(() -> {
            synchronized (b) { // @dead_b
                meeting.countDown();
                try {
                    meeting.await();
                } catch (InterruptedException never) {
                    throw new IllegalStateException(never);
                }
                synchronized (a) { // @dead_ba
                    words[0].length();
                }
            }
        });
        other.start(); // @dead_start
        synchronized (a) { // @dead_a
            meeting.countDown();
            meeting.await();
            System.out.println("ready " + ProcessHandle.current().pid());
            monitors_b();
        }
    }

    static void monitors_b() {
        synchronized (b) { // @dead_ab
            words[0].length();
        }
    }

    /** Runs until it is killed, and says so once each thread has made some turns. */
    static void busy() throws Exception {
        AtomicIntegerArray turns = new AtomicIntegerArray(3);
        for (int number = 0; number < 3; number++) {
            int seed = number;
            Random choose = new Random(seed);
            Thread thread = new Thread(() -> {
                Object[] locks = new Object[12];
                for (int i = 0; i < locks.length; i++) {
                    locks[i] = new Object();
                }
                while (true) {
                    nest(locks, choose, choose.nextInt(4) + 1);
                    turns.incrementAndGet(seed);
                }
            });
            thread.start();
        }
        for (int seed = 0; seed < 3; seed++) {
            while (turns.get(seed) < 20) {
                Thread.sleep(1);
            }
        }
        System.out.println("ready " + ProcessHandle.current().pid());
    }

    static void nest(Object[] locks, Random choose, int depth) {
        synchronized (locks[choose.nextInt(locks.length)]) {
            if (depth > 1) {
                nest(locks, choose, depth - 1);
            }
        }
    }

    static synchronized void deeper(int n) {
        if (n % 3 == 0) {
            deeperWithAnother(n + 1);
        } else {
            deeper(n + 1);
        }
    }

    static void deeperWithAnother(int n) {
        synchronized (new Object()) {
            deeper(n + 1);
        }
    }

    /** However the end of the stack ends methods and blocks, nothing is held afterwards. */
    static void outOfStack() {
        for (int i = 0; i < 4; i++) {
            try {
                deeper(1);
            } catch (StackOverflowError expected) {
                words[0].length();
            }
        }
        synchronized (b) { // @after_overflow
            words[0].length();
        } // @after_overflow_end
    }

    static Object[] all;

    static void fill() {
        synchronized (a) {
            while (true) {
                all = new Object[] {all};
            }
        }
    }

    /** An error ends the block where there is no memory for anything else either. */
    static void outOfMemory() {
        for (int i = 0; i < 3; i++) {
            try {
                fill();
            } catch (OutOfMemoryError expected) {
                all = null;
            }
        }
        synchronized (b) { // @after_memory
            words[0].length();
        } // @after_memory_end
    }

    /** As if the stack had ended in the recorder: it has an acquire of a monitor that wasn't entered. */
    static void overflowInTheRecorder() throws Exception {
        Class<?> recorder = Class.forName("goodlock.runtime.Recorder");
        Object place = recorder.getMethod("place", String.class).invoke(null, "Locks.java:1");
        java.lang.reflect.Field overflows = recorder.getDeclaredField("overflows");
        overflows.setAccessible(true);
        synchronized (b) { // @overflow_b
            recorder.getMethod("monitorEnter", Object.class, int.class).invoke(null, a, place);
            overflows.setInt(null, overflows.getInt(null) + 1);
            synchronized (a) { // @overflow_a
                words[0].length();
            } // @overflow_a_end
        } // @overflow_b_end
    }

    /** As if memory had ended in the recorder, when it writes what is new. */
    static void outOfMemoryInTheRecorder() throws Exception {
        java.lang.reflect.Method place = Class.forName("goodlock.runtime.Recorder").getMethod("place", String.class);
        place.invoke(null, "x".repeat(10 << 20));
        synchronized (new Object()) { // @scarce
            words[0].length();
        } // @scarce_end
        Thread thread = new Worker();
        thread.start(); // @scarce_start
        thread.join(); // @scarce_join
    }

    static void shutdownHook() {
        Runtime.getRuntime().addShutdownHook(new Thread(() -> both(b, a), "hook"));
        both(a, b);
    }

    static void halts() {
        monitors();
        Runtime.getRuntime().halt(5);
    }

    static void nothing() {
    }

    static void child() throws Exception {
        Process child = new ProcessBuilder(System.getProperty("java.home") + "/bin/java", "-cp",
                System.getProperty("java.class.path"), "Locks", "monitors").inheritIO().start();
        child.waitFor();
        System.out.println(child.pid());
    }

    /** Serial versions that depend on a synchronized method's modifiers. */
    static class Serial implements java.io.Serializable {
        public synchronized void method() {
            words[0].length();
        }
    }

    record SerialRecord(int number) implements java.io.Serializable {
        synchronized void method() {
            words[0].length();
        }
    }

    static void serial() {
        for (Class<?> type : new Class<?>[] {Serial.class, SerialRecord.class}) {
            System.out.println(java.io.ObjectStreamClass.lookup(type).getSerialVersionUID());
        }
    }

    static void fields() {
        for (java.lang.reflect.Field field : Account.class.getDeclaredFields()) {
            System.out.println(field + " " + field.isSynthetic());
        }
        new Account().add(1);
    }

    static void queue() {
        ConcurrentLinkedQueue<Integer> queue = new ConcurrentLinkedQueue<>();
        java.util.Vector<Integer> vector = new java.util.Vector<>();
        queue.add(1);
        vector.add(1);
    }

    static void virtualThreads() throws Exception {
        Runnable task = () -> {
            synchronized (a) {
                words[0].length();
            }
        };
        ((Thread) Thread.class.getMethod("startVirtualThread", Runnable.class).invoke(null, task)).join();
        monitors();
    }
}
