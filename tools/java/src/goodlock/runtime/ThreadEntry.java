package goodlock.runtime;

import java.lang.ref.ReferenceQueue;

/** A thread that was started, by its Thread object. */
final class ThreadEntry extends Identities.Entry {
    final ThreadState state;

    ThreadEntry(Thread thread, ThreadState state, ReferenceQueue<Object> gone) {
        super(thread, System.identityHashCode(thread), gone);
        this.state = state;
    }
}
