package goodlock.runtime;

import java.nio.ByteBuffer;

/**
 * Events of one thread, and what of them is left out: the same rule as in tools/record/locks.c. Only the thread itself comes here. On
 * the program's path nothing is allocated but where something is new.
 */
final class ThreadState {
    static final int ACQUIRE = 1;
    static final int RELEASE = 2;
    static final int SHARED_ACQUIRE = 3;
    static final int SHARED_RELEASE = 4;
    static final int TRY_ACQUIRE = 5;
    static final int TRY_SHARED_ACQUIRE = 6;
    static final int FORK = 7;
    static final int JOIN = 8;
    static final int UPGRADE = 9;
    static final int BEYOND = 10;

    private static final int SITE_SHIFT = 5;
    private static final int OBJECT_SHIFT = 32;
    private static final int HELD_LIMIT = 64;
    /** goodlock takes no more acquires of a lock by a thread that holds it. */
    private static final int DEPTH_LIMIT = 1_000_000;
    private static final int FIRST_KEYS = 256;
    private static final int KEYS_LIMIT = 1 << 22;
    private static final int NOWHERE = -1;

    /** A lock that the thread holds, and what lies above it: `struct held` and `struct level` in tools/record/recorder.h. */
    private static final class Held {
        LockEntry entry;
        int lock;
        boolean shared;
        long word;
        long identity;
        long context;
        int depth;
        int place;
        ByteBuffer words;
        long newsBefore;
    }

    /** 0: nothing is recorded of this thread. */
    final ByteBuffer record;
    final int number;
    /** The thread is in the recorder already. */
    boolean busy;
    int children;
    int made;

    private final Process process;
    private Held[] held = new Held[8];
    private int heldCount;
    private long news;
    private long segments;
    private long[] keys = new long[FIRST_KEYS];
    private int keyCount;
    private ByteBuffer words;
    private int room;
    private int used;
    private int chunks;
    /** Those of the recorder's when it was last sure what the thread holds. */
    private int overflows;

    ThreadState(Process process, ByteBuffer record, int number) {
        this.process = process;
        this.record = record;
        this.number = number;
        for (int i = 0; i < held.length; i++) {
            held[i] = new Held();
        }
    }

    boolean isOff() {
        return record == null || busy;
    }

    // --- Words

    private static long word(int kind, int site, int object) {
        return kind | (long) site << SITE_SHIFT | (long) object << OBJECT_SHIFT;
    }

    /** Stores a word; its place, or NOWHERE. */
    private int store(long word) {
        if (used == room && !nextChunk()) {
            count(Files.LOST, 1);
            return NOWHERE;
        }
        words.putLong(8 * used, word);
        return used++;
    }

    private boolean nextChunk() {
        ByteBuffer more;
        boolean before = busy;
        busy = true; // what the recorder itself does isn't recorded
        try {
            more = process.newEvents(number, chunks++);
        } finally {
            busy = before;
        }
        if (more == null) {
            return false;
        }
        words = more;
        room = more.capacity() / 8;
        used = 0;
        return true;
    }

    /** The last word first: if the process is killed in between, what stays is the front of what happened. */
    private void leaveOut(int start) {
        for (int place = used - 1; place >= start; place--) {
            words.putLong(8 * place, 0);
        }
        count(Files.LEFT_OUT, used - start + 1);
        used = start;
    }

    private void count(int place, int more) {
        record.putLong(8 * place, record.getLong(8 * place) + more);
    }

    void countOther() {
        count(Files.OTHERS, 1);
    }

    // --- What is known already

    private static long keyOf(long context, long word) {
        long key = context + word;
        key = (key ^ key >>> 32) * 0xd6e8feb86659fd93L;
        key = (key ^ key >>> 32) * 0xd6e8feb86659fd93L;
        return (key ^ key >>> 32) | 2;
    }

    private int placeOf(long key) {
        int place = (int) (key >>> 8) & keys.length - 1;
        while (keys[place] != 0 && keys[place] != key) {
            place = place + 1 & keys.length - 1;
        }
        return place;
    }

    private boolean isNews(long key) {
        int place = placeOf(key);
        if (keys[place] == key) {
            return process.all;
        }
        if (2 * keyCount >= keys.length && keys.length < KEYS_LIMIT) {
            growKeys();
            place = placeOf(key);
        }
        if (2 * keyCount < keys.length) {
            keys[place] = key;
            keyCount++;
        }
        return true;
    }

    private void growKeys() {
        long[] old = keys;
        keys = new long[2 * old.length];
        keyCount = 0;
        for (long key : old) {
            if (key != 0 && key != 1) {
                keys[placeOf(key)] = key;
                keyCount++;
            }
        }
    }

    /** Its key isn't known after all. 1 is a key that was taken away. */
    private void takeKeyAway(long key) {
        int place = placeOf(key);
        if (keys[place] == key) {
            keys[place] = 1;
        }
    }

    /** Locks that stay held were acquired in an earlier segment: they get other identities. */
    private void endSegment() {
        segments++;
        long context = 0;
        for (int i = 0; i < heldCount; i++) {
            held[i].place = NOWHERE;
            held[i].identity = keyOf(held[i].identity, segments);
            context = held[i].context = keyOf(context, held[i].identity);
        }
        if (keyCount > 0) {
            keys = new long[FIRST_KEYS];
            keyCount = 0;
        }
    }

    // --- Acquires and releases

    /** The index of a lock that is held, or -1. */
    private int find(int lock) {
        int index = heldCount - 1;
        while (index >= 0 && held[index].lock != lock) {
            index--;
        }
        return index;
    }

    /** The entry of the lock that was acquired last, if it was by this object, or this object's monitor; else null. */
    LockEntry lastEntry(Object object, boolean monitor) {
        LockEntry entry = heldCount > 0 ? held[heldCount - 1].entry : null;
        return entry != null && entry.get() == object && entry.monitor == monitor ? entry : null;
    }

    boolean holds(int lock) {
        return find(lock) >= 0;
    }

    int depth(int lock) {
        int index = find(lock);
        return index < 0 ? 0 : held[index].depth;
    }

    private void keepAbove(int index) {
        for (int level = index + 1; level < heldCount; level++) {
            held[level].place = NOWHERE;
        }
    }

    void acquire(int kind, int site, LockEntry entry) {
        acquire(kind, site, entry.number);
        if (held[heldCount - 1].lock == entry.number) {
            held[heldCount - 1].entry = entry;
        }
    }

    void acquire(int kind, int site, int lock) {
        settle();
        int index = find(lock);
        if (index >= 0 || heldCount == HELD_LIMIT) {
            acquireFurther(kind, site, lock, index);
            return;
        }
        if (heldCount == held.length) {
            growHeld();
        }
        long word = word(kind, site, lock);
        Held top = held[heldCount];
        top.entry = null;
        top.lock = lock;
        top.shared = kind == SHARED_ACQUIRE || kind == TRY_SHARED_ACQUIRE;
        top.word = word;
        top.identity = word;
        top.context = keyOf(heldCount > 0 ? held[heldCount - 1].context : 0, word);
        top.depth = 1;
        top.newsBefore = news;
        heldCount++;
        if (isNews(top.context)) {
            news++;
        }
        top.place = store(word);
        top.words = words;
    }

    private void growHeld() {
        Held[] larger = new Held[2 * held.length];
        System.arraycopy(held, 0, larger, 0, held.length);
        for (int i = held.length; i < larger.length; i++) {
            larger[i] = new Held();
        }
        held = larger;
    }

    /** An acquire of a lock that is held already, or where too many are held. */
    private void acquireFurther(int kind, int site, int lock, int index) {
        long context = held[heldCount - 1].context;
        int written = kind;
        boolean shared = kind == SHARED_ACQUIRE || kind == TRY_SHARED_ACQUIRE;
        if (index >= 0) {
            keepAbove(index);
        }
        if (index >= 0 && held[index].shared && !shared) {
            written = UPGRADE;
        } else if (index < 0 || held[index].depth == DEPTH_LIMIT) {
            written = BEYOND;
        } else {
            held[index].depth++;
        }
        long word = word(written, site, lock);
        if (isNews(keyOf(context, word))) {
            news++;
        }
        store(word);
    }

    /** Takes the last acquire back, which was of this lock: it failed. */
    void takeBack(int lock) {
        int index = find(lock);
        long last = used > 0 ? words.getLong(8 * (used - 1)) : 0;
        if ((int) (last >>> OBJECT_SHIFT) == lock) {
            used--;
            words.putLong(8 * used, 0);
        }
        int kind = (int) last & (1 << SITE_SHIFT) - 1;
        if (index >= 0 && kind != UPGRADE && kind != BEYOND) {
            if (held[index].depth > 1) {
                held[index].depth--;
            } else {
                if (held[index].newsBefore != news) {
                    takeKeyAway(held[index].context);
                }
                remove(index);
            }
        }
        countOther();
    }

    /** Takes a lock out of those held. If it wasn't acquired last, the later ones have new contexts. */
    private void remove(int index) {
        keepAbove(index);
        Held removed = held[index];
        heldCount--;
        System.arraycopy(held, index + 1, held, index, heldCount - index);
        held[heldCount] = removed;
        removed.words = null;
        for (int i = index; i < heldCount; i++) {
            held[i].context = keyOf(i > 0 ? held[i - 1].context : 0, held[i].identity);
        }
    }

    /** Writes a release, or leaves it out with all since the thread last held as many locks as afterwards. */
    void release(int site, int lock) {
        settle();
        if (heldCount > 0) {
            Held top = held[heldCount - 1];
            if (top.lock == lock && top.depth == 1 && top.newsBefore == news && top.place != NOWHERE && top.words == words) {
                leaveOut(top.place);
                heldCount--;
                top.words = null;
                return;
            }
        }
        releaseFurther(site, lock);
    }

    private void releaseFurther(int site, int lock) {
        int index = find(lock);
        long word = word(index >= 0 && held[index].shared ? SHARED_RELEASE : RELEASE, site, lock);
        if (index < 0 && !isNews(keyOf(0, word))) {
            count(Files.LEFT_OUT, 1);
            return;
        }
        store(word);
        if (index < 0) {
            return;
        }
        held[index].depth--;
        if (held[index].depth == 0) {
            remove(index);
        } else {
            keepAbove(index);
        }
    }

    /** After a thread ran out of stack or memory in the recorder: acquires that didn't come about, and releases that aren't written, end here. */
    private void settle() {
        if (overflows == Recorder.overflows) {
            return;
        }
        for (int index = heldCount - 1; index >= 0; index--) {
            Held last = held[index];
            if (last.entry != null && !Kinds.isHeld(last.entry)) {
                int site = (int) (last.word >>> SITE_SHIFT) & (1 << OBJECT_SHIFT - SITE_SHIFT) - 1;
                for (int depth = last.depth; depth > 0; depth--) {
                    releaseFurther(site, last.lock);
                }
            }
        }
        if (heldCount == 0) {
            overflows = Recorder.overflows;
        }
    }

    // --- Threads

    void fork(int site, int thread) {
        settle();
        children++;
        count(Files.CHILDREN, 1);
        endSegment();
        store(word(FORK, site, thread));
    }

    void join(int site, int thread) {
        settle();
        endSegment();
        store(word(JOIN, site, thread));
    }
}
