// A bare UDP echo loop, a client that measures OFFERs and requests, and three ways to disturb a desk. Built and run by serve_speed.sh.
//   echo ADDRESS PORT
//   offers FROM ADDRESS PORT COUNT IN-FLIGHT PAUSE-MICROSECONDS   prints: answers a second, median and 99th of 100 microseconds
//   hold ADDRESS PORT COUNT                                       keeps so many silent connections open
//   flood ADDRESS PORT CHILDREN TOKEN                             sends commands, each of which is committed
//   asks ADDRESS PORT TARGET TOKEN COUNT PAUSE-MICROSECONDS       prints: median and 99th of 100 microseconds of a GET
//   list ADDRESS PORT CHILDREN TOKEN                              asks for the list of all machines, without pause
#include <arpa/inet.h>
#include <errno.h>
#include <signal.h>
#include <stdint.h>
#include <stdio.h>
#include <stdlib.h>
#include <string.h>
#include <sys/prctl.h>
#include <sys/socket.h>
#include <sys/time.h>
#include <time.h>
#include <unistd.h>

enum { MACHINES = 10000, MAX_FLIGHT = 64 };

static void check(int is_good, const char *what) {
    if (!is_good) { perror(what); exit(1); }
}

static double now(void) {
    struct timespec t;
    clock_gettime(CLOCK_MONOTONIC, &t);
    return t.tv_sec * 1e6 + t.tv_nsec / 1e3;
}

static struct sockaddr_in place(const char *address, int port) {
    struct sockaddr_in a = {.sin_family = AF_INET, .sin_port = htons(port)};
    check(inet_pton(AF_INET, address, &a.sin_addr) == 1, address);
    return a;
}

static int bound(const char *address, int port) {
    int s = socket(AF_INET, SOCK_DGRAM, 0), on = 1;
    struct sockaddr_in a = place(address, port);
    check(s >= 0, "socket");
    setsockopt(s, SOL_SOCKET, SO_REUSEADDR, &on, sizeof on);
    check(bind(s, (struct sockaddr *)&a, sizeof a) == 0, "bind");
    return s;
}

static void echo(const char *address, int port) {
    static uint8_t octets[65535];
    int s = bound(address, port);
    for (;;) {
        struct sockaddr_in from;
        socklen_t len = sizeof from;
        ssize_t n = recvfrom(s, octets, sizeof octets, 0, (struct sockaddr *)&from, &len);
        if (n > 0) sendto(s, octets, n, 0, (struct sockaddr *)&from, len);
    }
}

// A DISCOVER of a 64-bit UEFI machine through a relay agent (RFC 2131 section 2, RFC 4578).
static size_t discover(uint8_t *m, uint32_t xid, struct in_addr relay) {
    static const uint8_t tail[] = "\x63\x82\x53\x63\x35\x01\x01\x3c\x20PXEClient:Arch:00007:UNDI:003016\x5d\x02\x00\x07\x5e\x03\x01\x03\x10\xff";
    uint32_t number = htonl(xid), machine = xid % MACHINES;
    memset(m, 0, 236);
    m[0] = m[1] = 1, m[2] = 6, m[3] = 1;
    memcpy(m + 4, &number, 4);
    memcpy(m + 24, &relay, 4);
    m[28] = 0x52, m[29] = 0x54, m[32] = machine >> 8, m[33] = machine;
    memcpy(m + 236, tail, sizeof tail - 1);
    return 236 + sizeof tail - 1;
}

static int by_size(const void *a, const void *b) {
    double x = *(const double *)a, y = *(const double *)b;
    return (x > y) - (x < y);
}

static void offers(char **w) {
    int s = bound(w[0], 67), count = atoi(w[3]), flight = atoi(w[4]), pause = atoi(w[5]);
    struct sockaddr_in to = place(w[1], atoi(w[2]));
    struct in_addr relay = place(w[0], 0).sin_addr;
    struct timeval patience = {.tv_sec = 2};
    double *took = malloc(sizeof *took * count), *sent_at = malloc(sizeof *sent_at * count);
    uint8_t octets[2048];
    int sent = 0, got = 0, lost = 0, misses = 0;
    check(took && sent_at && flight > 0 && flight <= MAX_FLIGHT, "arguments");
    setsockopt(s, SOL_SOCKET, SO_RCVTIMEO, &patience, sizeof patience);
    double begin = now();
    while (got + lost < count) {
        while (sent < count && sent - got - lost < flight) {
            if (pause) usleep(pause);
            size_t len = discover(octets, sent, relay);
            sent_at[sent] = now();
            check(sendto(s, octets, len, 0, (struct sockaddr *)&to, sizeof to) == (ssize_t)len, "sendto");
            sent++;
        }
        ssize_t n = recv(s, octets, sizeof octets, 0);
        if (n < 0) {
            check(errno == EAGAIN, "recv");
            lost += sent - got - lost;
            if (++misses > 3) { fprintf(stderr, "four times no answer came for two seconds\n"); exit(1); }
            continue;
        }
        uint32_t number;
        memcpy(&number, octets + 4, 4);
        number = ntohl(number);
        if (n >= 240 && (int)number < sent && got < count) took[got++] = now() - sent_at[number];
    }
    double all = now() - begin;
    if (got == 0) { fprintf(stderr, "no answer came\n"); exit(1); }
    if (lost) fprintf(stderr, "%d of %d weren't answered\n", lost, count);
    qsort(took, got, sizeof *took, by_size);
    printf("%.0f %.1f %.1f\n", got / all * 1e6, took[got / 2], took[(int)(got * 0.99)]);
}

static int connected(const char *address, int port) {
    int s = socket(AF_INET, SOCK_STREAM, 0);
    struct sockaddr_in a = place(address, port);
    check(s >= 0, "socket");
    if (connect(s, (struct sockaddr *)&a, sizeof a) == 0) return s;
    close(s);
    return -1;
}

// The desk closes what is silent for two seconds; it is opened again.
static void hold(char **w) {
    int count = atoi(w[2]), open[MAX_FLIGHT];
    check(count > 0 && count <= MAX_FLIGHT, "COUNT");
    for (int i = 0; i < count; i++) open[i] = connected(w[0], atoi(w[1]));
    for (;; usleep(2000))
        for (int i = 0; i < count; i++) {
            char octet;
            ssize_t n = open[i] < 0 ? 0 : recv(open[i], &octet, 1, MSG_DONTWAIT);
            if (n < 0 && (errno == EAGAIN || errno == EINTR)) continue;
            if (open[i] >= 0) close(open[i]);
            open[i] = connected(w[0], atoi(w[1]));
        }
}

// So many processes, numbered from 1, of which all end with the first.
static int forked(int children) {
    for (int self = 1; self < children; self++)
        if (fork() == 0) {
            prctl(PR_SET_PDEATHSIG, SIGKILL);
            return self + 1;
        }
    return 1;
}

// Asks once and reads the whole answer: how many octets came, none where the desk took no connection.
static size_t ask(const char *address, int port, const char *request, int n) {
    static char answer[1 << 20];
    size_t all = 0;
    int s = connected(address, port);
    if (s < 0) return 0;
    if (send(s, request, n, MSG_NOSIGNAL) == n)
        for (ssize_t more; (more = recv(s, answer, sizeof answer, 0)) > 0;) all += more;
    close(s);
    return all;
}

static void asks(char **w) {
    int count = atoi(w[4]), pause = atoi(w[5]);
    double *took = malloc(sizeof *took * count);
    char request[512];
    int n = snprintf(request, sizeof request, "GET %s HTTP/1.1\r\nAuthorization: Bearer %s\r\n\r\n", w[2], w[3]);
    check(took && count > 0, "COUNT");
    for (int i = 0; i < count; i++) {
        if (pause) usleep(pause);
        double begin = now();
        if (!ask(w[0], atoi(w[1]), request, n)) { fprintf(stderr, "no answer came\n"); exit(1); }
        took[i] = now() - begin;
    }
    qsort(took, count, sizeof *took, by_size);
    printf("%.1f %.1f\n", took[count / 2], took[(int)(count * 0.99)]);
}

static void list(char **w) {
    char request[512];
    int n = snprintf(request, sizeof request, "GET /machines HTTP/1.1\r\nAuthorization: Bearer %s\r\n\r\n", w[3]);
    forked(atoi(w[2]));
    for (;;)
        if (!ask(w[0], atoi(w[1]), request, n)) usleep(1000);
}

static void flood(char **w) {
    int self = forked(atoi(w[2]));
    for (unsigned i = 0;; i++) {
        char body[256], request[768];
        int n = snprintf(body, sizeof body, "{\"key\":\"00000000-0000-4000-9%03x-%012x\",\"command\":\"add_pool\",\"pool\":\"p%d-%u-%u\"}",
                         self & 0xfff, i, self, (unsigned)getpid(), i);
        n = snprintf(request, sizeof request, "POST /commands HTTP/1.1\r\nHost: desk\r\nAuthorization: Bearer %s\r\nContent-Length: %d\r\n\r\n%s",
                     w[3], n, body);
        if (!ask(w[0], atoi(w[1]), request, n)) usleep(1000);
    }
}

int main(int count, char **words) {
    const char *what = count > 1 ? words[1] : "";
    if (!strcmp(what, "echo") && count == 4) echo(words[2], atoi(words[3]));
    else if (!strcmp(what, "offers") && count == 8) offers(words + 2);
    else if (!strcmp(what, "hold") && count == 5) hold(words + 2);
    else if (!strcmp(what, "flood") && count == 6) flood(words + 2);
    else if (!strcmp(what, "asks") && count == 8) asks(words + 2);
    else if (!strcmp(what, "list") && count == 6) list(words + 2);
    else { fprintf(stderr, "see the head of serve_speed.c\n"); return 2; }
    return 0;
}
