package goodlock.runtime;

import java.lang.ref.ReferenceQueue;

/** What is known of an object that is used as a lock. */
final class LockEntry extends Identities.Entry {
    /** 0 until the lock's first event. Several objects may stand for one lock, as the two sides of a reader-writer lock. */
    volatile int number;
    /** The lock is the object's monitor, and not the one that an object of java.util.concurrent is. */
    final boolean monitor;
    /** Acquires through this object are shared. */
    final boolean shared;
    /** Where it was made; 0: that isn't known. */
    int site;
    int maker;
    int order;
    String kind;

    LockEntry(Object object, boolean monitor, ReferenceQueue<Object> gone) {
        super(object, System.identityHashCode(object), gone);
        this.monitor = monitor;
        shared = !monitor && Kinds.isShared(object);
        kind = monitor ? Kinds.nameOfMonitor(object) : Kinds.nameOf(object);
    }
}
