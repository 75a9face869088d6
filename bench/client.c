/* A client that asks for nothing but answers: it sends requests over connections of their own, from as many threads as it
 * is given files, and tells how long the answers took.
 *
 *     client PORT FILE.. [-- FILE..]
 *
 * A file is a list of requests, each behind its length, four bytes with the lowest first. All threads start at once, and each
 * sends the requests of its file in order, each as soon as the answer before it has ended. It prints one line: the number of
 * answers, those of status 200, the sum of what they say under "success", the seconds from the start to the last answer, the
 * 50th and the 99th percentile of the times of an answer in microseconds (from before the connection to its end), the
 * processor time that the client itself took, and the longest of those times. The files behind `--` are sent beside: each of
 * their threads ends before its next request once all others have ended, and a second line tells of them. It is built with
 * -O2 -pthread. */

#define _GNU_SOURCE
#include <arpa/inet.h>
#include <pthread.h>
#include <stdatomic.h>
#include <stdint.h>
#include <stdio.h>
#include <stdlib.h>
#include <string.h>
#include <sys/resource.h>
#include <sys/socket.h>
#include <time.h>
#include <unistd.h>

enum { ROOM = 1 << 22 };

struct client {
    pthread_t thread;
    const char *path;
    unsigned char *bytes;
    size_t length, count, good;
    unsigned long long success;
    double *times;
    double end;
    int is_beside;
};

static struct sockaddr_in server;
static pthread_barrier_t start;
/* How many clients that aren't beside have requests left. */
static atomic_int asking;

static void stop(const char *what) {
    perror(what);
    exit(1);
}

static double now(void) {
    struct timespec moment;
    clock_gettime(CLOCK_MONOTONIC, &moment);
    return moment.tv_sec + moment.tv_nsec * 1e-9;
}

static size_t number(const unsigned char *bytes) {
    return bytes[0] | bytes[1] << 8 | bytes[2] << 16 | (size_t)bytes[3] << 24;
}

/* Reads the file of a client, and counts its requests. */
static void load(struct client *client) {
    FILE *file = fopen(client->path, "rb");
    if (!file || fseek(file, 0, SEEK_END))
        stop(client->path);
    client->length = ftell(file);
    client->bytes = malloc(client->length + 1);
    rewind(file);
    if (!client->bytes || fread(client->bytes, 1, client->length, file) != client->length)
        stop(client->path);
    fclose(file);
    for (size_t at = 0; at < client->length; at += 4 + number(client->bytes + at))
        client->count++;
    client->times = malloc((client->count + 1) * sizeof *client->times);
    if (!client->times)
        stop("times");
}

static int connected(void) {
    int socket_number = socket(AF_INET, SOCK_STREAM, 0);
    if (socket_number < 0 || connect(socket_number, (struct sockaddr *)&server, sizeof server))
        stop("connect");
    return socket_number;
}

/* Sends a request, and reads its answer into the room; answers its length. */
static size_t answer(const unsigned char *request, size_t length, char *room) {
    int connection = connected();
    for (size_t sent = 0; sent < length;) {
        ssize_t more = send(connection, request + sent, length - sent, MSG_NOSIGNAL);
        if (more <= 0)
            stop("send");
        sent += more;
    }
    size_t got = 0;
    for (;;) {
        ssize_t more = recv(connection, room + got, ROOM - 1 - got, 0);
        if (more < 0 || got == ROOM - 1)
            stop("recv");
        if (more == 0)
            break;
        got += more;
    }
    close(connection);
    room[got] = 0;
    return got;
}

static void *run(void *given) {
    struct client *client = given;
    char *room = malloc(ROOM);
    if (!room)
        stop("room");
    pthread_barrier_wait(&start);
    size_t turn = 0;
    for (size_t at = 0; at < client->length && (!client->is_beside || atomic_load(&asking));) {
        size_t length = number(client->bytes + at);
        double before = now();
        answer(client->bytes + at + 4, length, room);
        client->end = now();
        client->times[turn++] = client->end - before;
        client->good += !strncmp(room, "HTTP/1.1 200 ", 13);
        char *success = strstr(room, "\"success\":");
        if (success)
            client->success += strtoull(success + 10, NULL, 10);
        at += 4 + length;
    }
    client->count = turn;
    if (!client->is_beside)
        atomic_fetch_sub(&asking, 1);
    free(room);
    return NULL;
}

static int compare(const void *left, const void *right) {
    double a = *(const double *)left, b = *(const double *)right;
    return (a > b) - (a < b);
}

static void tell(struct client *clients, int many, double begin) {
    size_t count = 0, good = 0, at = 0;
    unsigned long long success = 0;
    double end = begin;
    for (int i = 0; i < many; i++) {
        count += clients[i].count;
        good += clients[i].good;
        success += clients[i].success;
        end = clients[i].end > end ? clients[i].end : end;
    }
    double *times = malloc((count + 1) * sizeof *times);
    if (!times || !count)
        stop("no requests");
    for (int i = 0; i < many; i++) {
        memcpy(times + at, clients[i].times, clients[i].count * sizeof *times);
        at += clients[i].count;
    }
    qsort(times, count, sizeof *times, compare);
    struct rusage used;
    getrusage(RUSAGE_SELF, &used);
    double own = used.ru_utime.tv_sec + used.ru_stime.tv_sec + (used.ru_utime.tv_usec + used.ru_stime.tv_usec) * 1e-6;
    printf("%zu %zu %llu %.6f %.1f %.1f %.3f %.1f\n", count, good, success, end - begin, times[(count - 1) / 2] * 1e6,
           times[(size_t)((count - 1) * 0.99)] * 1e6, own, times[count - 1] * 1e6);
}

int main(int words, char **word) {
    int front = 0;
    while (front + 2 < words && strcmp(word[front + 2], "--"))
        front++;
    int many = front + 2 < words ? words - 3 : front;
    if (!front) {
        fprintf(stderr, "client PORT FILE.. [-- FILE..]\n");
        return 2;
    }
    struct client *clients = calloc(many, sizeof *clients);
    if (!clients)
        stop("clients");
    server.sin_family = AF_INET;
    server.sin_port = htons(atoi(word[1]));
    server.sin_addr.s_addr = htonl(INADDR_LOOPBACK);
    pthread_barrier_init(&start, NULL, many + 1);
    atomic_init(&asking, front);
    for (int i = 0; i < many; i++) {
        clients[i].is_beside = i >= front;
        clients[i].path = word[i + 2 + clients[i].is_beside];
        load(&clients[i]);
        if (pthread_create(&clients[i].thread, NULL, run, &clients[i]))
            stop("thread");
    }
    pthread_barrier_wait(&start);
    double begin = now();
    for (int i = 0; i < many; i++)
        pthread_join(clients[i].thread, NULL);
    tell(clients, front, begin);
    if (many > front)
        tell(clients + front, many - front, begin);
    return 0;
}
