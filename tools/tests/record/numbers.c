/* A program that takes a file's number away from whoever has just opened it, as a thread does that closes all numbers,
 * and opens a file of its own, which gets that number. */
#define _GNU_SOURCE
#include <fcntl.h>
#include <pthread.h>
#include <stdarg.h>
#include <stdio.h>
#include <stdlib.h>
#include <sys/stat.h>
#include <sys/syscall.h>
#include <unistd.h>

static int takes;
static int own = -1;

static void take(int file)
{
    if (!takes)
        return;
    takes = 0;
    close(file);
    own = open("own", O_RDWR | O_CREAT | O_EXCL, 0600);
    if (own != file)
        _exit(98);
}

/* What may be the first that is asked of a file that was opened. */
int fchmod(int file, mode_t mode)
{
    take(file);
    return (int)syscall(SYS_fchmod, file, mode);
}

int fcntl(int file, int command, ...)
{
    va_list arguments;
    va_start(arguments, command);
    long argument = va_arg(arguments, long);
    va_end(arguments);
    take(file);
    return (int)syscall(SYS_fcntl, file, command, argument);
}

/* 200,000 events, of which no two stretches are alike. */
int main(void)
{
    enum { SIDE = 224 };
    pthread_mutex_t *outer = calloc(SIDE, sizeof *outer), *inner = calloc(SIDE, sizeof *inner);
    takes = 1;
    for (int i = 0; i < SIDE * SIDE; i++) {
        pthread_mutex_lock(&outer[i / SIDE]);
        pthread_mutex_lock(&inner[i % SIDE]);
        pthread_mutex_unlock(&inner[i % SIDE]);
        pthread_mutex_unlock(&outer[i / SIDE]);
    }
    struct stat status;
    return own < 0 || fstat(own, &status) != 0 || status.st_size != 0;
}
