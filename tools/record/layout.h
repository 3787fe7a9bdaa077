/*
 * The files that a recorded process leaves behind. `convert.py` reads the same layout.
 *
 * A process writes extents: files `PID.IMAGE.0`, `PID.IMAGE.1`, .. in the directory that the launcher
 * named, or in its subdirectory `uUID` once the process has become that user. IMAGE counts the programs that the
 * process ran one after the other (by exec). Extents are mapped shared, so that what is stored is in the file at
 * once, however the process ends; they may have any size, and are regular files of the directory's owner.
 *
 * An extent is a row of chunks, each a multiple of CHUNK_UNIT bytes. A chunk holds either words of one
 * thread's events or records of the tables. All numbers have the machine's byte order.
 *
 * The tables are read in the order of their chunks, whatever comes first in time: a record of a module holds for the
 * sites, locks and threads after it, until RECORD_UNLOADED takes it away. RECORD_PROCESS is the first record;
 * RECORD_START, RECORD_UNLOADED, RECORD_LOSSES and RECORD_END may be missing. Records of other kinds are skipped. A
 * lock without a record has a name of its own too.
 */
#ifndef GOODLOCK_LAYOUT_H
#define GOODLOCK_LAYOUT_H

#include <stdint.h>

#define LAYOUT_VERSION 1
#define CHUNK_UNIT 4096u
/* Sizes of extents: the first one's, and the most; each is four times as large as the one before. */
#define EXTENT_FIRST_BYTES (256u << 10)
#define EXTENT_BYTES (64u << 20)

#define CHUNK_EVENTS 0x676c6576u
#define CHUNK_TABLE 0x676c7462u

struct chunk {
    uint32_t magic;
    uint32_t thread; /* whose events these are; 0 in a chunk of the tables */
    uint32_t order;  /* counts the chunks of this thread, or of the tables */
    uint32_t bytes;  /* size of the chunk, this head included */
    uint64_t used;   /* how many words are in use */
    uint64_t kept;   /* at least so many of them won't be left out any more; a recorder may leave it 0 */
    uint64_t words[];
};

/* An event is one word: kind in bits 0-4, site in bits 5-31, lock (or thread) in bits 32-63. A word of
 * zero stands for no event. */
#define SITE_SHIFT 5
#define OBJECT_SHIFT 32
#define SITE_LIMIT (1u << 27)

enum event_kind {
    EVENT_ACQUIRE = 1,
    EVENT_RELEASE = 2,
    EVENT_SHARED_ACQUIRE = 3,
    EVENT_SHARED_RELEASE = 4,
    EVENT_TRY_ACQUIRE = 5,
    EVENT_TRY_SHARED_ACQUIRE = 6,
    EVENT_FORK = 7,
    EVENT_JOIN = 8,
    EVENT_UPGRADE = 9, /* exclusive acquire of a lock that the thread holds shared */
    EVENT_BEYOND = 10, /* acquire by a thread that holds HELD_LIMIT locks, or the lock DEPTH_LIMIT times */
    EVENT_AGAIN = 11,  /* acquire of a lock that the thread holds and that isn't recursive */
};

/* A record begins with a word: its kind in bits 0-31, its size in words (this one included) above. */
enum record_kind {
    RECORD_PROCESS = 1,
    RECORD_MODULE = 2,
    RECORD_SITE = 3,
    RECORD_LOCK = 4,
    RECORD_THREAD = 5,
    RECORD_START = 6,
    RECORD_UNLOADED = 7,
    RECORD_LOSSES = 8,
    /* For who asks which threads wait for ever (convert/live.c). */
    RECORD_ENDED = 9, /* the thread of this number ended, and held locks */
    RECORD_OWNER_DIED =
        10,          /* the lock of this number was taken though a thread had ended that held it: robust mutexes */
    RECORD_END = 11, /* how the process ended */
    RECORD_LEFT_LOCKED =
        12, /* a forked process has the lock of this number from its parent, of which a thread held it */
    /* Of recorders that know names and no addresses, as those of Java and Python. */
    RECORD_PLACE = 16,     /* a site's text: lines `path:line` or without a colon, the innermost first */
    RECORD_LOCK_KIND = 17, /* what stands for a lock's class in its name */
    RECORD_LOCK_NAME = 18, /* a lock's whole name */
    RECORD_ROUTINE = 19,   /* what stands for a thread's start routine in its name */
    RECORD_NOTE = 20,      /* a line for standard error; the number in it is `%d` in the text */
    RECORD_NO_LOCK = 21,   /* this number was a lock's and turned out to be none: its events don't count */
};

struct process_record {
    uint64_t head;
    uint64_t version;
    uint64_t pid;
    uint64_t image;
    uint64_t parent_pid; /* of the recorded process that forked this one; 0: there is none */
    uint64_t parent_image;
    uint64_t first_lock; /* locks below this number are the parent's */
    uint64_t first_site;
    uint64_t frames;
    uint64_t forks; /* how often it was about to fork: so many children name it as their parent */
    char command[]; /* ended by a zero byte */
};

/* Follows the process's record. */
struct start_record {
    uint64_t head;
    uint64_t moment; /* when the process began: field 22 of /proc/PID/stat */
};

/* How the process ended: marked as it does. */
enum end_kind {
    END_UNKNOWN = 0, /* it runs on, a signal ended it, or it ended past the C library */
    END_EXIT = 1,
    END_EXEC = 2, /* it became another program */
};

struct end_record {
    uint64_t head;
    uint64_t how;
};

/* What there was no room for; counted on while the process runs. A recorder may leave the reason out. */
struct losses_record {
    uint64_t head;
    uint64_t events; /* of threads without a record; others count their own */
    uint64_t locks;  /* records of locks: they have names by their first use */
    uint64_t places; /* sites */
    uint64_t threads;
    uint64_t reason; /* the errno of the first refusal */
};

struct module_record {
    uint64_t head;
    uint64_t bias; /* address in memory less address in the module's file */
    uint64_t start;
    uint64_t end;
    char path[];
};

/* The module that begins here is gone. */
struct unloaded_record {
    uint64_t head;
    uint64_t start;
};

struct site_record {
    uint64_t head;
    uint64_t site;
    uint64_t callers[]; /* return addresses, the innermost first */
};

enum lock_class {
    LOCK_MUTEX = 1,
    LOCK_RWLOCK = 2,
    LOCK_SPIN = 3,
    LOCK_ONCE = 4,   /* of pthread_once, call_once */
    LOCK_STATIC = 5, /* the guard of a static variable's initialisation */
};
enum lock_origin { LOCK_MADE = 1, LOCK_FOUND = 2 };

struct lock_record {
    uint64_t head;
    uint64_t lock;
    uint64_t class_and_origin; /* class in bits 0-31, origin above */
    uint64_t address;
    uint64_t site;             /* of the call that made it */
    uint64_t thread_and_order; /* who made it in bits 0-31; how many locks that thread had made before */
};

/* Of a thread that ended, of a lock whose owner died. */
struct number_record {
    uint64_t head;
    uint64_t number;
};

struct text_record {
    uint64_t head;
    uint64_t number; /* of the site, lock or thread */
    char text[];     /* ended by a zero byte */
};

#define THREAD_FOREIGN 0xffffffffu
#define OBJECT_WORDS 8

struct thread_record {
    uint64_t head;
    uint64_t thread;
    uint64_t parent; /* THREAD_FOREIGN: not made by a recorded call; the first thread names itself */
    uint64_t child;  /* which child of its parent it is, from 1 */
    uint64_t routine;
    uint64_t unmade;               /* 1: the call that should have made it failed */
    uint64_t chunks;               /* how many chunks of events it has, counted when they are there; some leave it 0 */
    uint64_t children;             /* how many threads it has made */
    uint64_t made;                 /* how many locks it has made */
    uint64_t left_out;             /* events of repeated stretches */
    uint64_t lost;                 /* events for which there was no room */
    uint64_t others;               /* calls that make no event */
    uint64_t object[OBJECT_WORDS]; /* the front of the C++ object that the thread runs; zeros if there is none */
    uint64_t joins; /* the word of the join in which it waits, without a limit; 0: it is in none. May be missing */
};

#endif
