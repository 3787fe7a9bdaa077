package goodlock.runtime;

import java.io.File;
import java.io.IOException;
import java.io.RandomAccessFile;
import java.nio.ByteBuffer;
import java.nio.ByteOrder;
import java.nio.MappedByteBuffer;
import java.nio.channels.ClosedByInterruptException;
import java.nio.channels.FileChannel;
import java.nio.charset.StandardCharsets;
import java.security.AccessController;
import java.security.PrivilegedActionException;
import java.security.PrivilegedExceptionAction;

/**
 * The files that a recorded Java process leaves behind: those of tools/record/layout.h, with records of names. Calls come from
 * one thread at a time.
 */
final class Files {
    static final int PROCESS = 1;
    static final int LOCK = 4;
    static final int THREAD = 5;
    static final int LOSSES = 8;
    static final int PLACE = 16;
    static final int LOCK_KIND = 17;
    static final int LOCK_NAME = 18;
    static final int ROUTINE = 19;
    static final int NOTE = 20;

    /** Words of a thread's record, from the head on. */
    static final int CHILDREN = 7;
    static final int LEFT_OUT = 9;
    static final int LOST = 10;
    static final int OTHERS = 11;

    private static final int LAYOUT_VERSION = 1;
    private static final int EXTENT_BYTES = 64 << 20;
    private static final int CHUNK_UNIT = 4096;
    private static final int CHUNK_HEAD = 32;
    private static final int CHUNK_DOUBLINGS = 8;
    private static final int TABLE_BYTES = 16 * CHUNK_UNIT;
    private static final int EVENTS_MAGIC = 0x676c6576;
    private static final int TABLE_MAGIC = 0x676c7462;
    private static final int USED_PLACE = 16;
    private static final int OBJECT_WORDS = 8;
    private static final int IMAGE_LIMIT = 100_000;

    /** Longer texts are cut: goodlock reads lines of 65,536 bytes. */
    private static final int PLACE_LIMIT = 8000;
    private static final int NAME_LIMIT = 1000;
    private static final String CUT = "...";

    private final String directory;
    private final long process;
    private long image;
    private int extents;
    private RandomAccessFile file;
    private MappedByteBuffer extent;
    private int used;
    private ByteBuffer table;
    private int tableUsed;
    private int tables;

    Files(String directory, long process) throws IOException {
        this.directory = directory;
        this.process = process;
        while (!openExtent()) {
            image++;
            if (image == IMAGE_LIMIT) {
                throw new IOException("no free name in " + directory);
            }
        }
    }

    /** Opens the next extent; false if there is a first extent of this image already: the process became another program. */
    private boolean openExtent() throws IOException {
        try {
            return AccessController.doPrivileged((PrivilegedExceptionAction<Boolean>) this::openNextExtent);
        } catch (PrivilegedActionException failure) {
            throw (IOException) failure.getCause();
        }
    }

    private boolean openNextExtent() throws IOException {
        File path = new File(directory, process + "." + image + "." + extents);
        if (!path.createNewFile()) {
            if (extents > 0) {
                throw new IOException(path + " exists");
            }
            return false;
        }
        extent = mapped(path);
        if (file != null) {
            file.close();
        }
        file = new RandomAccessFile(path, "rw");
        extents++;
        used = 0;
        return true;
    }

    /** A thread that is interrupted can't map a file. It is interrupted again afterwards. */
    private static MappedByteBuffer mapped(File path) throws IOException {
        boolean interrupted = false;
        try {
            while (true) {
                interrupted |= Thread.interrupted();
                try (RandomAccessFile opened = new RandomAccessFile(path, "rw")) {
                    return opened.getChannel().map(FileChannel.MapMode.READ_WRITE, 0, EXTENT_BYTES);
                } catch (ClosedByInterruptException again) {
                    interrupted = true;
                }
            }
        } finally {
            if (interrupted) {
                Thread.currentThread().interrupt();
            }
        }
    }

    private ByteBuffer newChunk(int magic, int thread, int order, int bytes, long usedWords) throws IOException {
        if (used + bytes > EXTENT_BYTES) {
            openExtent();
        }
        reserve(used, bytes);
        ByteBuffer chunk = extent.slice(used, bytes).order(ByteOrder.nativeOrder());
        chunk.putInt(4, thread);
        chunk.putInt(8, order);
        chunk.putInt(12, bytes);
        chunk.putLong(USED_PLACE, usedWords);
        chunk.putInt(0, magic);
        used += bytes;
        return chunk;
    }

    /** Room on the disk now: later, a store without it would be an error in the program. */
    private void reserve(int place, int bytes) throws IOException {
        file.seek(place);
        file.write(new byte[bytes]);
    }

    /** Room for events, all zero. A word of zero is no event: all words count as used from the beginning. */
    ByteBuffer newEvents(int thread, int order) throws IOException {
        int bytes = CHUNK_UNIT << Math.min(order, CHUNK_DOUBLINGS);
        ByteBuffer chunk = newChunk(EVENTS_MAGIC, thread, order, bytes, (bytes - CHUNK_HEAD) / 8);
        return chunk.slice(CHUNK_HEAD, bytes - CHUNK_HEAD).order(ByteOrder.nativeOrder());
    }

    /** Writes a record, of numbers and perhaps a text; gives its words, to be changed later. It counts once it is whole. */
    ByteBuffer write(int kind, String text, long... numbers) throws IOException {
        byte[] bytes = text == null ? new byte[0] : bytesOf(text, kind == PLACE ? PLACE_LIMIT : NAME_LIMIT);
        int words = 1 + numbers.length + (bytes.length + 7) / 8;
        if (table == null || CHUNK_HEAD + 8 * (tableUsed + words) > TABLE_BYTES) {
            table = newChunk(TABLE_MAGIC, 0, tables, TABLE_BYTES, 0);
            tables++;
            tableUsed = 0;
        }
        ByteBuffer record = table.slice(CHUNK_HEAD + 8 * tableUsed, 8 * words).order(ByteOrder.nativeOrder());
        record.putLong(0, kind | (long) words << 32);
        for (int i = 0; i < numbers.length; i++) {
            record.putLong(8 + 8 * i, numbers[i]);
        }
        record.put(8 + 8 * numbers.length, bytes);
        tableUsed += words;
        table.putLong(USED_PLACE, tableUsed);
        return record;
    }

    private static byte[] bytesOf(String text, int limit) {
        byte[] bytes = (text + "\0").getBytes(StandardCharsets.UTF_8);
        if (bytes.length <= limit) {
            return bytes;
        }
        int end = limit - CUT.length() - 1;
        while ((bytes[end] & 0xc0) == 0x80) { // within a character
            end--;
        }
        return (new String(bytes, 0, end, StandardCharsets.UTF_8) + CUT + "\0").getBytes(StandardCharsets.UTF_8);
    }

    void writeProcess(String command, int frames) throws IOException {
        write(PROCESS, command, LAYOUT_VERSION, process, image, 0, 0, 1, 1, frames, 0);
    }

    ByteBuffer writeLosses() throws IOException {
        return write(LOSSES, null, 0, 0, 0, 0);
    }

    ByteBuffer writeThread(int number, long parent, int child) throws IOException {
        long[] numbers = new long[11 + OBJECT_WORDS];
        numbers[0] = number;
        numbers[1] = parent;
        numbers[2] = child;
        return write(THREAD, null, numbers);
    }
}
