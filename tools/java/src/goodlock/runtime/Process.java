package goodlock.runtime;

import java.io.IOException;
import java.nio.ByteBuffer;
import java.util.ArrayList;
import java.util.HashMap;
import java.util.List;
import java.util.Map;

/**
 * The recorded process. What is new (a lock, place or thread) is written by one thread at a time, which takes no lock of the
 * program's meanwhile. Where there is no room for more, events are lost and counted. A thread that runs out of stack in here does it again,
 * if it comes again; what there is no memory for is lost, and what comes later isn't.
 */
final class Process {
    final boolean all;
    final int frames;
    /** Words of the record of losses. */
    private static final int LOST_LOCKS = 2;
    private static final int LOST_PLACES = 3;
    private static final int LOST_THREADS = 4;

    private final Files files;
    private final ByteBuffer losses;
    private final Map<String, Integer> places = new HashMap<>();
    /** The places' texts: that of number 1 is the first. */
    private final List<String> texts = new ArrayList<>();
    private final Map<String, ByteBuffer> notes = new HashMap<>();
    private int nextLock = 1;
    private int nextSite = 1;
    private int nextThread;
    private boolean full;

    Process(String directory, long number, String command, int frames, boolean all) throws IOException {
        this.all = all;
        this.frames = frames;
        files = new Files(directory, number);
        files.writeProcess(command, frames);
        losses = files.writeLosses();
    }

    private ByteBuffer write(int kind, String text, long... numbers) {
        try {
            return full ? null : files.write(kind, text, numbers);
        } catch (StackOverflowError overflow) {
            throw overflow;
        } catch (OutOfMemoryError scarce) {
            return null;
        } catch (IOException | Error failure) {
            full = true;
            return null;
        }
    }

    private void lose(int what) {
        losses.putLong(8 * what, losses.getLong(8 * what) + 1);
    }

    synchronized ByteBuffer newEvents(int thread, int order) {
        try {
            return full ? null : files.newEvents(thread, order);
        } catch (StackOverflowError overflow) {
            throw overflow;
        } catch (OutOfMemoryError scarce) {
            return null;
        } catch (IOException | Error failure) {
            full = true;
            return null;
        }
    }

    /** A place's number. The text has lines `path:line`, the innermost first. */
    synchronized int place(String text) {
        Integer known = places.get(text);
        if (known != null) {
            return known;
        }
        if (write(Files.PLACE, text, nextSite) == null) {
            lose(LOST_PLACES);
        }
        places.put(text, nextSite);
        texts.add(text);
        return nextSite++;
    }

    synchronized String textOf(int place) {
        return texts.get(place - 1);
    }

    /** The state of a new thread. */
    synchronized ThreadState newThread(long parent, int child, String routine) {
        int number = nextThread++;
        ByteBuffer record = null;
        try {
            record = full ? null : files.writeThread(number, parent, child);
        } catch (StackOverflowError overflow) {
            throw overflow;
        } catch (OutOfMemoryError scarce) {
            record = null;
        } catch (IOException | Error failure) {
            full = true;
        }
        if (record == null) {
            lose(LOST_THREADS);
        } else if (routine != null) {
            write(Files.ROUTINE, routine, number);
        }
        return new ThreadState(this, record, number);
    }

    /** A number for a lock: by the place where a thread made it, by its first use (site 0), or by a name alone. */
    synchronized int newLock(LockEntry entry, String name) {
        int number = nextLock++;
        long made = entry.site != 0 ? 1 : 2;
        if (write(Files.LOCK, null, number, 1 | made << 32, 0, entry.site, entry.maker | (long) entry.order << 32) == null) {
            lose(LOST_LOCKS);
        } else {
            write(name != null ? Files.LOCK_NAME : Files.LOCK_KIND, name != null ? name : entry.kind, number);
        }
        return number;
    }

    /** Counts a note; `%d` in it stands for how often. */
    synchronized void note(String text) {
        ByteBuffer record = notes.get(text);
        if (record == null && !notes.containsKey(text)) {
            record = write(Files.NOTE, text, 0);
            notes.put(text, record);
        }
        if (record != null) {
            record.putLong(8, record.getLong(8) + 1);
        }
    }
}
