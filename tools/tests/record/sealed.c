/* Forbids itself all system calls but the one that ends it, and ends, with status 7. */
#define _GNU_SOURCE
#include <linux/filter.h>
#include <linux/seccomp.h>
#include <pthread.h>
#include <stddef.h>
#include <stdlib.h>
#include <string.h>
#include <sys/prctl.h>
#include <sys/syscall.h>
#include <unistd.h>

#define NOT_SEALED 77
#define STATUS 7

static pthread_mutex_t lock = PTHREAD_MUTEX_INITIALIZER;

static int seals(void)
{
    struct sock_filter words[] = {
        BPF_STMT(BPF_LD | BPF_W | BPF_ABS, offsetof(struct seccomp_data, nr)),
        BPF_JUMP(BPF_JMP | BPF_JEQ | BPF_K, SYS_exit_group, 0, 1),
        BPF_STMT(BPF_RET | BPF_K, SECCOMP_RET_ALLOW),
        BPF_STMT(BPF_RET | BPF_K, SECCOMP_RET_KILL_THREAD),
    };
    struct sock_fprog filter = {sizeof words / sizeof *words, words};
    return prctl(PR_SET_NO_NEW_PRIVS, 1, 0, 0, 0) == 0 && prctl(PR_SET_SECCOMP, SECCOMP_MODE_FILTER, &filter) == 0;
}

int main(int count, char **arguments)
{
    const char *way = count > 1 ? arguments[1] : "";
    for (int turn = 0; turn < 2; turn++) {
        pthread_mutex_lock(&lock);
        pthread_mutex_unlock(&lock);
        if (turn == 0 && !seals())
            return NOT_SEALED;
    }
    if (strcmp(way, "at_once") == 0)
        _exit(STATUS);
    if (strcmp(way, "quickly") == 0)
        quick_exit(STATUS);
    return STATUS;
}
