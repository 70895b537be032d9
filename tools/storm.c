// Sends requests to a desk by so many clients at a time, of which each sends its next one once it has an answer, each by a connection of its
// own; prints the microseconds from the first request to the last answer. Built and run by storm.py.
//   storm ADDRESS PORT CLIENTS REQUESTS ANSWERS
// Both are files: for each request, in order, a line with the number of octets, and then these octets.
#include <arpa/inet.h>
#include <pthread.h>
#include <stdatomic.h>
#include <stdio.h>
#include <stdlib.h>
#include <string.h>
#include <sys/socket.h>
#include <time.h>
#include <unistd.h>

enum { MAX_CLIENTS = 256, MAX_ANSWER = 4096 };

struct exchange { char *request; size_t length; char answer[MAX_ANSWER]; size_t answered; };

static struct sockaddr_in desk;
static struct exchange *exchanges;
static size_t count;
static atomic_size_t next;

static void check(int is_good, const char *what) {
    if (!is_good) { perror(what); exit(1); }
}

static double now(void) {
    struct timespec t;
    clock_gettime(CLOCK_MONOTONIC, &t);
    return t.tv_sec * 1e6 + t.tv_nsec / 1e3;
}

static void read_requests(const char *name) {
    FILE *file = fopen(name, "rb");
    size_t room = 0, length;
    check(file != NULL, name);
    while (fscanf(file, "%zu", &length) == 1 && fgetc(file) == '\n') {
        if (count == room) {
            room = room ? 2 * room : 1024;
            exchanges = realloc(exchanges, room * sizeof *exchanges);
            check(exchanges != NULL, "realloc");
        }
        struct exchange *it = &exchanges[count++];
        it->request = malloc(length), it->length = length, it->answered = 0;
        check(it->request != NULL && fread(it->request, 1, length, file) == length, name);
    }
    fclose(file);
}

static void write_answers(const char *name) {
    FILE *file = fopen(name, "wb");
    check(file != NULL, name);
    for (size_t i = 0; i < count; i++) {
        fprintf(file, "%zu\n", exchanges[i].answered);
        fwrite(exchanges[i].answer, 1, exchanges[i].answered, file);
    }
    check(fclose(file) == 0, name);
}

static void *client(void *unused) {
    size_t i;
    while ((i = atomic_fetch_add(&next, 1)) < count) {
        struct exchange *it = &exchanges[i];
        ssize_t more;
        int s = socket(AF_INET, SOCK_STREAM, 0);
        check(s >= 0 && connect(s, (struct sockaddr *)&desk, sizeof desk) == 0, "connect");
        check(send(s, it->request, it->length, MSG_NOSIGNAL) == (ssize_t)it->length, "send");
        while ((more = recv(s, it->answer + it->answered, MAX_ANSWER - it->answered, 0)) > 0) it->answered += more;
        check(more == 0, "recv");
        close(s);
    }
    return unused;
}

int main(int words, char **word) {
    pthread_t threads[MAX_CLIENTS];
    int clients = words == 6 ? atoi(word[3]) : 0;
    if (clients < 1 || clients > MAX_CLIENTS) { fprintf(stderr, "see the head of storm.c\n"); return 2; }
    desk = (struct sockaddr_in){.sin_family = AF_INET, .sin_port = htons(atoi(word[2]))};
    check(inet_pton(AF_INET, word[1], &desk.sin_addr) == 1, word[1]);
    read_requests(word[4]);
    double begin = now();
    for (int i = 0; i < clients; i++) check(pthread_create(&threads[i], NULL, client, NULL) == 0, "thread");
    for (int i = 0; i < clients; i++) pthread_join(threads[i], NULL);
    printf("%.0f\n", now() - begin);
    write_answers(word[5]);
    return 0;
}
