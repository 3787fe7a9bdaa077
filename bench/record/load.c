/*
 * Load for a memcached: load PORT CONNECTIONS REQUESTS
 *
 * Each connection has a thread that sends its requests one after the other: of ten, one sets a value and nine get
 * one, over 1,000 keys. The server's address is 127.0.0.1. The status is 1 if a connection failed.
 */
#include <arpa/inet.h>
#include <netinet/tcp.h>
#include <pthread.h>
#include <stdio.h>
#include <stdlib.h>
#include <string.h>
#include <sys/socket.h>
#include <unistd.h>

enum { KEYS = 1000, CONNECTIONS_LIMIT = 64 };

static int port;
static long requests;

static int connect_to_server(void)
{
    int one = 1;
    struct sockaddr_in address = {.sin_family = AF_INET, .sin_port = htons((unsigned short)port)};
    inet_pton(AF_INET, "127.0.0.1", &address.sin_addr);
    int server = socket(AF_INET, SOCK_STREAM, 0);
    if (server < 0 || connect(server, (struct sockaddr *)&address, sizeof address) != 0)
        return -1;
    setsockopt(server, IPPROTO_TCP, TCP_NODELAY, &one, sizeof one);
    return server;
}

/* Reads until the answer ends as this text does. */
static int read_answer(int server, const char *end_of_get)
{
    char answer[4096];
    size_t length = 0;
    while (length < sizeof answer) {
        ssize_t more = read(server, answer + length, sizeof answer - length);
        if (more <= 0)
            return 0;
        length += (size_t)more;
        size_t end = strlen(end_of_get);
        if (length >= end && memcmp(answer + length - end, end_of_get, end) == 0)
            return 1;
    }
    return 0;
}

static void *connection(void *argument)
{
    unsigned seed = (unsigned)(size_t)argument;
    int server = connect_to_server();
    if (server < 0)
        return "no connection";
    for (long i = 0; i < requests; i++) {
        char request[256];
        int key = (int)(rand_r(&seed) % KEYS);
        int is_set = i % 10 == 0;
        int length = is_set ? snprintf(request, sizeof request, "set key%d 0 0 32\r\n%032d\r\n", key, key)
                            : snprintf(request, sizeof request, "get key%d\r\n", key);
        if (write(server, request, (size_t)length) != length)
            return "write failed";
        if (!read_answer(server, is_set ? "STORED\r\n" : "END\r\n"))
            return "read failed";
    }
    close(server);
    return NULL;
}

int main(int count, char **arguments)
{
    pthread_t threads[CONNECTIONS_LIMIT];
    int status = 0;
    if (count != 4 || atoi(arguments[2]) > CONNECTIONS_LIMIT)
        return 2;
    port = atoi(arguments[1]);
    requests = atol(arguments[3]);
    for (long i = 0; i < atoi(arguments[2]); i++)
        pthread_create(&threads[i], NULL, connection, (void *)(i + 1));
    for (long i = 0; i < atoi(arguments[2]); i++) {
        void *fault;
        pthread_join(threads[i], &fault);
        if (fault)
            fprintf(stderr, "load: %s\n", (char *)fault), status = 1;
    }
    return status;
}
