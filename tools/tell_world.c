// Stands in for programs of a pretended world (world.py), under their names: tells the world, at the socket WORLD_SOCKET, which life of which
// machine called it (WORLD_LIFE), its name, when it was called (in seconds since the host started) and its words, waits for what comes of it,
// prints that, and ends with the status that came first.
#include <libgen.h>
#include <stdio.h>
#include <stdlib.h>
#include <string.h>
#include <sys/socket.h>
#include <sys/un.h>
#include <unistd.h>

static int called(void) {
    struct sockaddr_un at = {.sun_family = AF_UNIX};
    const char *path = getenv("WORLD_SOCKET");
    int s = socket(AF_UNIX, SOCK_STREAM | SOCK_CLOEXEC, 0);
    if (!path || strlen(path) >= sizeof at.sun_path || s < 0) return -1;
    strcpy(at.sun_path, path);
    return connect(s, (struct sockaddr *)&at, sizeof at) ? -1 : s;
}

// When this process was made, which is when it was called: on a busy host it may begin much later.
static double since(void) {
    char text[1024], *at;
    unsigned long long ticks = 0;
    FILE *file = fopen("/proc/self/stat", "r");
    size_t got = file ? fread(text, 1, sizeof text - 1, file) : 0;
    text[got] = 0;
    at = strrchr(text, ')');
    for (int word = 0; at && word < 20; word++) at = strchr(at + 1, ' ');
    if (at) ticks = strtoull(at, NULL, 10);
    return (double)ticks / sysconf(_SC_CLK_TCK);
}

int main(int count, char **words) {
    char text[4096], *life = getenv("WORLD_LIFE");
    int length = snprintf(text, sizeof text, "%s\t%s\t%.2f", life ? life : "", basename(words[0]), since());
    for (int at = 1; at < count && length < (int)sizeof text - 2; at++) length += snprintf(text + length, sizeof text - length, "\t%s", words[at]);
    if (length > (int)sizeof text - 2) return 125;
    text[length++] = '\n';
    int s = called();
    if (s < 0 || write(s, text, length) != length) return 125;
    FILE *answer = fdopen(s, "r");
    int status, ended = answer && fscanf(answer, "%d", &status) == 1 && fgetc(answer) == '\n';
    if (!ended) return 125;
    for (size_t got; (got = fread(text, 1, sizeof text, answer)) > 0;) fwrite(text, 1, got, status ? stderr : stdout);
    return status;
}
