/* What programs of the tests share: telling the test how far they are, and giving turns to threads, by nothing that is an event. */
#include <dirent.h>
#include <stdio.h>
#include <stdlib.h>
#include <string.h>
#include <sys/syscall.h>
#include <unistd.h>

static inline void say_ready(void)
{
    printf("ready %d\n", (int)getpid());
    fflush(stdout);
}

/* Whether the thread of this number sleeps, or has ended. */
static inline int is_asleep(const char *thread)
{
    char path[300], line[400];
    snprintf(path, sizeof path, "/proc/self/task/%s/stat", thread);
    FILE *file = fopen(path, "r");
    if (!file)
        return 1;
    size_t length = fread(line, 1, sizeof line - 1, file);
    fclose(file);
    line[length] = 0;
    const char *name_end = strrchr(line, ')');
    return !name_end || strchr("SZX", name_end[2]) != NULL;
}

static inline int others_sleep(void)
{
    DIR *threads = opendir("/proc/self/task");
    int all = 1;
    for (struct dirent *entry = readdir(threads); entry; entry = readdir(threads))
        if (entry->d_name[0] != '.' && atol(entry->d_name) != syscall(SYS_gettid) && !is_asleep(entry->d_name))
            all = 0;
    closedir(threads);
    return all;
}

/* Until the first thread has ended, by pthread_exit, of a process in which others run on. */
static inline void wait_for_first_to_end(void)
{
    char path[32], state = 0;
    snprintf(path, sizeof path, "/proc/%d/stat", (int)getpid());
    while (state != 'Z') {
        FILE *file = fopen(path, "r");
        if (!file || fscanf(file, "%*d (%*[^)]) %c", &state) != 1)
            _exit(99);
        fclose(file);
        usleep(1000);
    }
}

/* How often a thread of the process went to sleep so far. */
static inline long sleeps_of(long thread)
{
    char path[300], line[400];
    long sleeps = 0;
    snprintf(path, sizeof path, "/proc/self/task/%ld/status", thread);
    FILE *file = fopen(path, "r");
    while (file && fgets(line, sizeof line, file))
        sscanf(line, "voluntary_ctxt_switches: %ld", &sleeps);
    if (file)
        fclose(file);
    return sleeps;
}

/* Until each other thread of the process has ended, or waits: however busy the machine is, it has come so far. */
static inline void wait_for_others(void)
{
    for (int looks = 0; looks < 2; looks = others_sleep() ? looks + 1 : 0)
        usleep(1000);
}
