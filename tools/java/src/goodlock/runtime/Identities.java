package goodlock.runtime;

import java.lang.ref.Reference;
import java.lang.ref.ReferenceQueue;
import java.lang.ref.WeakReference;

/**
 * What is known of objects, by identity; objects are held weakly. Finding takes no lock and allocates nothing. Adding is done by one
 * thread at a time; who found nothing looks again before it adds.
 */
final class Identities<E extends Identities.Entry> {
    static class Entry extends WeakReference<Object> {
        final int hash;
        volatile Entry next;

        Entry(Object object, int hash, ReferenceQueue<Object> gone) {
            super(object, gone);
            this.hash = hash;
        }
    }

    private static final int FIRST_SIZE = 1 << 12;

    final ReferenceQueue<Object> gone = new ReferenceQueue<>();
    private volatile Entry[] table = new Entry[FIRST_SIZE];
    private int count;

    @SuppressWarnings("unchecked")
    E find(Object object) {
        int hash = System.identityHashCode(object);
        Entry[] entries = table;
        Entry entry = entries[hash & entries.length - 1];
        while (entry != null && (entry.hash != hash || entry.get() != object)) {
            entry = entry.next;
        }
        return (E) entry;
    }

    void add(E entry) {
        forgetGone();
        if (2 * count > table.length) {
            grow();
        }
        Entry[] entries = table;
        entry.next = entries[entry.hash & entries.length - 1];
        store(entries, entry);
        count++;
    }

    /** Readers of the table see a whole entry. */
    private void store(Entry[] entries, Entry entry) {
        entries[entry.hash & entries.length - 1] = entry;
        table = entries;
    }

    private void forgetGone() {
        for (Reference<?> reference = gone.poll(); reference != null; reference = gone.poll()) {
            Entry entry = (Entry) reference;
            int place = entry.hash & table.length - 1;
            Entry before = null;
            Entry at = table[place];
            while (at != null && at != entry) {
                before = at;
                at = at.next;
            }
            if (at != null && before != null) {
                before.next = at.next;
            } else if (at != null) {
                table[place] = at.next;
            }
            count -= at != null ? 1 : 0;
        }
    }

    /** A reader that follows an entry from the old table may miss others; it looks again before it adds. */
    private void grow() {
        Entry[] old = table;
        Entry[] larger = new Entry[2 * old.length];
        for (Entry first : old) {
            Entry entry = first;
            while (entry != null) {
                Entry following = entry.next;
                int place = entry.hash & larger.length - 1;
                entry.next = larger[place];
                larger[place] = entry;
                entry = following;
            }
        }
        table = larger;
    }
}
