/**
 * The calls of goodlock.h, by goodlock_jni.c. A handle is a long; a call that can't be done throws IllegalStateException.
 * A thread's lane is that thread's; the session is one thread's at a time.
 */
final class Goodlock {
    static final int ACQUIRE = 0, ACQUIRE_SHARED = 1, RELEASE = 2, RELEASE_SHARED = 3;
    static final int TRY_ACQUIRE = 4, TRY_ACQUIRE_SHARED = 5, FORK = 6, JOIN = 7;

    static {
        System.loadLibrary("goodlock_jni");
    }

    private Goodlock() {}

    static native long open(long number, int threads, int ring);

    static native long lane(long session);

    static native int lock(long session, String name);

    static native int place(long session, String name);

    /** Whether there was room: else nothing was recorded. */
    static native boolean tryRecord(long lane, int kind, int operand, int place);

    /** Whether there was room: else the lane isn't closed. */
    static native boolean tryClose(long lane);

    /** Pulls at most so many notes, and answers the number of events, with that of end marks in the upper half. */
    static native long pull(long session, int most);

    static native void handIn(long session, long lane);

    /** Settles the session, answers its report's text, and frees it. Where it throws, it may be called again. */
    static native String settle(long session);

    /** Records an event, as soon as there is room for it. */
    static void record(long lane, int kind, int operand, int place) {
        while (!tryRecord(lane, kind, operand, place)) {
            Thread.onSpinWait(); // until the collecting thread pulls
        }
    }

    static void close(long lane) {
        while (!tryClose(lane)) {
            Thread.onSpinWait();
        }
    }
}
