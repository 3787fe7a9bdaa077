package goodlock.runtime;

import java.io.IOException;
import java.util.concurrent.locks.Lock;
import java.util.concurrent.locks.StampedLock;
import java.util.function.Supplier;

/**
 * What instrumented code calls: at each event with the object and the number of the place. No lock is taken here but where a lock, place
 * or thread is new, and none of these is held while the program waits for a lock of its own.
 */
public final class Recorder {
    /** In the number of a place: the lock was called by `super`. */
    public static final int BY_SUPER = 1 << 31;

    private static final long FOREIGN = 0xffffffffL;
    private static final String VIRTUAL =
            "virtual threads are refused: the locks that they take aren't recorded (%d virtual threads took locks)";

    private static final ThreadLocal<ThreadState> STATE = new ThreadLocal<>();
    /** Locks of java.util.concurrent, and monitors: an object may be one and have the other. */
    private static final Identities<LockEntry> LOCKS = new Identities<>();
    private static final Identities<LockEntry> MONITORS = new Identities<>();
    private static final Identities<ThreadEntry> THREADS = new Identities<>();
    private static Process process;
    /** The JVM's first thread, and its object. */
    private static ThreadState first;
    private static Thread firstThread;
    /** How often a thread ran out of stack or memory in here: what it did then may be written in part. */
    static int overflows;

    private Recorder() {
    }

    /** Called once, by the first thread. */
    public static void start(String directory, long number, String command, int frames, boolean all) throws IOException {
        process = new Process(directory, number, command, frames, all);
        first = process.newThread(0, 0, null);
        firstThread = Thread.currentThread();
        STATE.set(first);
        Places.start(frames);
        Kinds.start();
    }

    static boolean isStarted() {
        return process != null;
    }

    public static int place(String text) {
        return process.place(text);
    }

    public static void note(String text) {
        process.note(text);
    }

    /** Whether this is the name of the class that instrumented code calls. */
    public static boolean isRecorder(String name) {
        return Recorder.class.getName().equals(name);
    }

    public static Class<?> itself() {
        return Recorder.class;
    }

    /** Does work of the recorder's own, of which nothing is recorded, whatever of the JDK it uses. */
    public static <T> T quietly(Supplier<T> work) {
        ThreadState state = STATE.get();
        ThreadState quiet = state != null ? state : new ThreadState(process, null, 0);
        boolean before = quiet.busy;
        quiet.busy = true;
        STATE.set(quiet);
        try {
            return work.get();
        } finally {
            quiet.busy = before;
            if (state == null) {
                STATE.remove();
            }
        }
    }

    // --- The present thread

    private static ThreadState state() {
        ThreadState state = STATE.get();
        return state != null ? state : enter();
    }

    /** A thread's first event, or the first after its thread-locals were erased. */
    private static ThreadState enter() {
        ThreadState state = null;
        STATE.set(new ThreadState(process, null, 0)); // until its own is there, nothing is recorded
        try {
            state = newState();
        } finally {
            STATE.set(state);
        }
        return state;
    }

    private static ThreadState newState() {
        Thread thread = Thread.currentThread();
        ThreadState state;
        ThreadEntry entry = THREADS.find(thread);
        synchronized (THREADS) {
            entry = entry != null ? entry : THREADS.find(thread);
            if (entry == null) {
                boolean virtual = isVirtual(thread);
                state = virtual ? new ThreadState(process, null, 0) : isFirst(thread) ? first : process.newThread(FOREIGN, 0, null);
                if (virtual) {
                    process.note(VIRTUAL);
                }
                entry = new ThreadEntry(thread, state, THREADS.gone);
                THREADS.add(entry);
            }
        }
        return entry.state;
    }

    /** When main has ended its thread becomes another object, which starts the shutdown hooks. */
    private static boolean isFirst(Thread thread) {
        return thread.getName().equals("DestroyJavaVM") && !firstThread.isAlive();
    }

    private static boolean isVirtual(Thread thread) {
        String name = thread.getClass().getName();
        return name.equals("java.lang.VirtualThread") || name.startsWith("java.lang.ThreadBuilders$");
    }

    /** The place, with callers if they are asked for. */
    private static int at(ThreadState state, int site) {
        int place = site & ~BY_SUPER;
        if (process.frames == 1) {
            return place;
        }
        state.busy = true;
        try {
            return process.place(Places.withCallers(process.textOf(place)));
        } finally {
            state.busy = false;
        }
    }

    // --- Numbers of locks

    /** The entry of a lock of java.util.concurrent, with its number. */
    private static LockEntry lockOf(ThreadState state, Object object) {
        LockEntry entry = LOCKS.find(object);
        return entry != null && entry.number != 0 ? entry : newEntry(state, object, false);
    }

    /** The entry of an object's monitor, with its number. */
    private static LockEntry monitorOf(ThreadState state, Object object) {
        LockEntry entry = MONITORS.find(object);
        return entry != null && entry.number != 0 ? entry : newEntry(state, object, true);
    }

    private static LockEntry newEntry(ThreadState state, Object object, boolean monitor) {
        state.busy = true;
        try {
            synchronized (LOCKS) {
                LockEntry entry = added(object, monitor);
                if (entry.number == 0) {
                    Object key = monitor ? object : Kinds.keyOf(object);
                    LockEntry whole = key == object ? entry : added(key, false);
                    if (whole.number == 0) {
                        whole.number = process.newLock(whole, key instanceof Class ? Kinds.nameOfClass((Class<?>) key) : null);
                    }
                    entry.number = whole.number;
                }
                return entry;
            }
        } finally {
            state.busy = false;
        }
    }

    private static LockEntry added(Object object, boolean monitor) {
        Identities<LockEntry> known = monitor ? MONITORS : LOCKS;
        LockEntry entry = known.find(object);
        if (entry == null) {
            entry = new LockEntry(object, monitor, known.gone);
            known.add(entry);
        }
        return entry;
    }

    /** The program made this object here, which is made to be a lock. */
    public static void made(Object object, int site) {
        ThreadState state = state();
        if (state.isOff()) {
            return;
        }
        int place = at(state, site);
        state.busy = true;
        try {
            synchronized (LOCKS) {
                LockEntry entry = object.getClass() == Object.class ? added(object, true) : added(Kinds.keyOf(object), false);
                if (entry.site == 0 && entry.number == 0) {
                    entry.kind = Kinds.nameOf(object);
                    entry.site = place;
                    entry.maker = state.number;
                    entry.order = state.made++;
                }
            }
        } finally {
            state.busy = false;
        }
    }

    // --- Monitors

    /** Before a monitor is entered, or just after where that can't be. */
    public static void monitorEnter(Object object, int site) {
        try {
            ThreadState state = state();
            if (object != null && !state.isOff()) {
                state.acquire(ThreadState.ACQUIRE, at(state, site), monitorOf(state, object));
            }
        } catch (VirtualMachineError overflow) {
            overflows++;
            throw overflow;
        }
    }

    /** Before a monitor is left, which it is in any case. */
    public static void monitorExit(Object object, int site) {
        try {
            ThreadState state = state();
            if (object != null && !state.isOff()) {
                // The hash of a locked object is slow to get.
                LockEntry last = state.lastEntry(object, true);
                state.release(at(state, site), (last != null ? last : monitorOf(state, object)).number);
            }
        } catch (VirtualMachineError overflow) {
            overflows++;
        }
    }

    /** Before Object.wait. A wait gives the monitor back and takes it again; it may hang while it does. */
    public static void waits(Object object, int site) {
        ThreadState state = state();
        if (object != null && !state.isOff()) {
            waitFor(state, at(state, site), monitorOf(state, object).number);
        }
    }

    private static void waitFor(ThreadState state, int site, int lock) {
        int depth = state.depth(lock);
        for (int i = 0; i < depth; i++) {
            state.release(site, lock);
        }
        for (int i = 0; i < depth; i++) {
            state.acquire(ThreadState.ACQUIRE, site, lock);
        }
        if (depth == 0) {
            state.countOther();
        }
    }

    // --- Locks of java.util.concurrent.locks

    private static void acquires(ThreadState state, Object lock, int site) {
        LockEntry entry = lockOf(state, lock);
        state.acquire(entry.shared ? ThreadState.SHARED_ACQUIRE : ThreadState.ACQUIRE, at(state, site), entry);
    }

    /** A class of the program's that stands before a lock's methods with its own calls them by `super`: that is where they are
     * recorded. */
    private static boolean isOff(ThreadState state, Object lock, int site, int methods) {
        return !Kinds.isLock(lock) || state.isOff() || (site & BY_SUPER) == 0 && Kinds.overrides(lock, methods);
    }

    /** Before Lock.lock. */
    public static void lock(Object lock, int site) {
        try {
            ThreadState state = state();
            if (!isOff(state, lock, site, Kinds.LOCK)) {
                acquires(state, lock, site);
            }
        } catch (VirtualMachineError overflow) {
            overflows++;
            throw overflow;
        }
    }

    /** After Lock.lockInterruptibly, where it couldn't be replaced. */
    public static void lockedInterruptibly(Object lock, int site) {
        ThreadState state = state();
        if (!isOff(state, lock, site, Kinds.LOCK_INTERRUPTIBLY)) {
            acquires(state, lock, site);
        }
    }

    /** In place of Lock.lockInterruptibly: the acquire is taken back if the thread is interrupted. */
    public static void lockInterruptibly(Lock lock, int site) throws InterruptedException {
        ThreadState state = state();
        boolean off = isOff(state, lock, site, Kinds.LOCK_INTERRUPTIBLY);
        if (!off) {
            acquires(state, lock, site);
        }
        boolean taken = false;
        try {
            lock.lockInterruptibly();
            taken = true;
        } finally {
            if (!taken && !off) {
                state.takeBack(lockOf(state, lock).number);
            }
        }
    }

    /** After a form of Lock.tryLock. */
    public static void tried(Object lock, boolean taken, int site) {
        ThreadState state = state();
        if (isOff(state, lock, site, Kinds.TRY_LOCK)) {
            return;
        }
        LockEntry entry = lockOf(state, lock);
        if (taken) {
            int kind = entry.shared ? ThreadState.TRY_SHARED_ACQUIRE : ThreadState.TRY_ACQUIRE;
            state.acquire(kind, at(state, site), entry);
        } else {
            state.countOther();
        }
    }

    /** Before Lock.unlock, which fails if the thread doesn't hold the lock. */
    public static void unlock(Object lock, int site) {
        try {
            ThreadState state = state();
            if (!isOff(state, lock, site, Kinds.UNLOCK)) {
                unlocks(state, lock, site);
            }
        } catch (VirtualMachineError overflow) {
            overflows++;
        }
    }

    private static void unlocks(ThreadState state, Object lock, int site) {
        LockEntry last = state.lastEntry(lock, false);
        int number = (last != null ? last : lockOf(state, lock)).number;
        if (state.holds(number)) {
            state.release(at(state, site), number);
        } else {
            state.countOther();
        }
    }

    /** Before a form of Condition.await. */
    public static void awaits(Object condition, int site) {
        ThreadState state = state();
        if (condition != null && !state.isOff() && Kinds.isCondition(condition)) {
            waitFor(state, at(state, site), lockOf(state, condition).number);
        }
    }

    // --- StampedLock

    /** Before StampedLock.readLock and writeLock. */
    public static void stampedRead(Object lock, int site) {
        stamped(lock, site, ThreadState.SHARED_ACQUIRE);
    }

    public static void stampedWrite(Object lock, int site) {
        stamped(lock, site, ThreadState.ACQUIRE);
    }

    private static void stamped(Object lock, int site, int kind) {
        ThreadState state = state();
        if (lock instanceof StampedLock && !state.isOff()) {
            state.acquire(kind, at(state, site), lockOf(state, lock).number);
        }
    }

    /** In place of the interruptible forms. */
    public static long stampedReadInterruptibly(StampedLock lock, int site) throws InterruptedException {
        stampedRead(lock, site);
        long stamp = 0;
        try {
            stamp = lock.readLockInterruptibly();
        } finally {
            takeBackUnless(stamp != 0, lock);
        }
        return stamp;
    }

    public static long stampedWriteInterruptibly(StampedLock lock, int site) throws InterruptedException {
        stampedWrite(lock, site);
        long stamp = 0;
        try {
            stamp = lock.writeLockInterruptibly();
        } finally {
            takeBackUnless(stamp != 0, lock);
        }
        return stamp;
    }

    private static void takeBackUnless(boolean taken, Object lock) {
        ThreadState state = state();
        if (!taken && lock != null && !state.isOff()) {
            state.takeBack(lockOf(state, lock).number);
        }
    }

    /** After the try forms. */
    public static void stampedTriedRead(Object lock, long stamp, int site) {
        stampedTried(lock, stamp, site, ThreadState.TRY_SHARED_ACQUIRE);
    }

    public static void stampedTriedWrite(Object lock, long stamp, int site) {
        stampedTried(lock, stamp, site, ThreadState.TRY_ACQUIRE);
    }

    private static void stampedTried(Object lock, long stamp, int site, int kind) {
        ThreadState state = state();
        if (stamp != 0) {
            stamped(lock, site, kind);
        } else if (!state.isOff()) {
            state.countOther();
        }
    }

    /** After unlock, unlockRead and unlockWrite. */
    public static void stampedUnlocked(Object lock, int site) {
        ThreadState state = state();
        if (lock instanceof StampedLock && !state.isOff()) {
            state.release(at(state, site), lockOf(state, lock).number);
        }
    }

    /** After tryUnlockRead and tryUnlockWrite. */
    public static void stampedTriedUnlock(Object lock, boolean unlocked, int site) {
        if (unlocked) {
            stampedUnlocked(lock, site);
        }
    }

    /** After the tryConvert forms: what was held is given back, and what is held now was tried. */
    public static void stampedConverted(Object lock, long stamp, long before, int site) {
        if (stamp == 0 || stamp == before) {
            return;
        }
        if (StampedLock.isLockStamp(before)) {
            stampedUnlocked(lock, site);
        }
        if (StampedLock.isWriteLockStamp(stamp)) {
            stamped(lock, site, ThreadState.TRY_ACQUIRE);
        } else if (StampedLock.isReadLockStamp(stamp)) {
            stamped(lock, site, ThreadState.TRY_SHARED_ACQUIRE);
        }
    }

    // --- Threads

    /** At the beginning of Thread.start. */
    public static void starting(Thread thread) {
        ThreadState state = state();
        if (state.isOff()) {
            return;
        }
        state.busy = true;
        try {
            synchronized (THREADS) {
                if (THREADS.find(thread) != null) {
                    return; // started before: the call will fail
                }
                ThreadState started = process.newThread(state.number, state.children + 1, Places.routineOf(thread));
                if (!started.isOff()) {
                    THREADS.add(new ThreadEntry(thread, started, THREADS.gone));
                    state.fork(process.place(Places.ofCaller()), started.number);
                }
            }
        } finally {
            state.busy = false;
        }
    }

    /** The entry of a thread that was started, or null. Who finds none while another thread adds one may have missed it. */
    private static ThreadEntry startedEntry(Thread thread) {
        ThreadEntry entry = THREADS.find(thread);
        if (entry == null) {
            synchronized (THREADS) {
                entry = THREADS.find(thread);
            }
        }
        return entry;
    }

    /** After Thread.join with a Duration. */
    public static void joined(Object object, boolean ended, int site) {
        joined(object, site);
    }

    /** After the other forms of Thread.join. */
    public static void joined(Object object, int site) {
        if (!(object instanceof Thread)) {
            return;
        }
        Thread thread = (Thread) object;
        ThreadState state = state();
        if (state.isOff()) {
            return;
        }
        ThreadEntry entry = startedEntry(thread);
        if (entry != null && !thread.isAlive() && entry.state.record != null) {
            state.join(at(state, site), entry.state.number);
        } else {
            state.countOther();
        }
    }
}
