// What bench/relay.sh runs. As `relay plain FROM TO` it hands bytes on from one address to another by read and write; as
// `relay time ANSWER MIB COMMAND..` it starts the command with two addresses behind its words, sends a message with a body
// of so many MiB to the first, reads all that comes from the second, and prints microseconds, and those of the command's processor.
#include <arpa/inet.h>
#include <netinet/in.h>
#include <stdio.h>
#include <stdlib.h>
#include <string.h>
#include <sys/resource.h>
#include <sys/socket.h>
#include <sys/time.h>
#include <sys/wait.h>
#include <time.h>
#include <unistd.h>

static void need(int fine, const char *what) {
    if (!fine) {
        perror(what);
        exit(1);
    }
}

static int to(const char *address) {
    struct sockaddr_in place = {.sin_family = AF_INET, .sin_port = htons(atoi(strchr(address, ':') + 1))};
    inet_pton(AF_INET, "127.0.0.1", &place.sin_addr);
    int s = socket(AF_INET, SOCK_STREAM, 0);
    need(s >= 0 && connect(s, (struct sockaddr *)&place, sizeof place) == 0, "connect");
    return s;
}

static void write_all(int s, const char *bytes, size_t count) {
    while (count > 0) {
        ssize_t wrote = write(s, bytes, count);
        need(wrote > 0, "write");
        bytes += wrote;
        count -= wrote;
    }
}

static int plain(const char *from, const char *target) {
    static char buffer[65536];
    int in = to(from), out = to(target);
    for (;;) {
        ssize_t count = read(in, buffer, sizeof buffer);
        need(count >= 0, "read");
        if (count == 0) return 0;
        write_all(out, buffer, count);
    }
}

static int wait_at(char *address) {
    struct sockaddr_in place = {.sin_family = AF_INET};
    socklen_t len = sizeof place;
    inet_pton(AF_INET, "127.0.0.1", &place.sin_addr);
    int s = socket(AF_INET, SOCK_STREAM, 0);
    need(s >= 0 && bind(s, (struct sockaddr *)&place, len) == 0 && listen(s, 1) == 0, "listen");
    getsockname(s, (struct sockaddr *)&place, &len);
    sprintf(address, "127.0.0.1:%d", ntohs(place.sin_port));
    return s;
}

static double now(void) {
    struct timespec t;
    clock_gettime(CLOCK_MONOTONIC, &t);
    return t.tv_sec * 1e6 + t.tv_nsec / 1e3;
}

static void send_message(int s, int answer, size_t body) {
    static char bytes[1 << 20];
    int head = sprintf(bytes, "%s\r\nContent-Length: %zu\r\n\r\n", answer ? "HTTP/1.1 200 OK" : "POST / HTTP/1.1\r\nHost: h", body);
    write_all(s, bytes, head);
    memset(bytes, 'x', sizeof bytes);
    for (size_t sent = 0; sent < body; sent += sizeof bytes) write_all(s, bytes, sizeof bytes);
}

static int time_it(int answer, size_t body, char **command, int words) {
    static char first[32], second[32], sink[1 << 20];
    int source = wait_at(first), target = wait_at(second);
    command[words] = first;
    command[words + 1] = second;
    pid_t relay = fork();
    if (relay == 0) {
        execv(command[0], command);
        exit(127);
    }
    int in = accept(source, NULL, NULL), out = accept(target, NULL, NULL);
    need(in >= 0 && out >= 0, "accept");
    double start = now();
    pid_t sender = fork();
    if (sender == 0) {
        close(out);
        send_message(in, answer, body);
        exit(0);
    }
    close(in);
    size_t came = 0;
    for (ssize_t count; (count = read(out, sink, sizeof sink)) > 0;) came += count;
    double end = now();
    int status;
    struct rusage use;
    waitpid(sender, NULL, 0);
    need(wait4(relay, &status, 0, &use) == relay && status == 0 && came > body, "relay");
    double processor = use.ru_utime.tv_sec * 1e6 + use.ru_utime.tv_usec + use.ru_stime.tv_sec * 1e6 + use.ru_stime.tv_usec;
    printf("%.0f %.0f\n", end - start, processor);
    return 0;
}

int main(int count, char **words) {
    if (count == 4 && strcmp(words[1], "plain") == 0) return plain(words[2], words[3]);
    if (count < 5 || count > 12 || strcmp(words[1], "time") != 0) return 2;
    static char *command[16];
    for (int i = 4; i < count; i++) command[i - 4] = words[i];
    return time_it(atoi(words[2]), (size_t)atoi(words[3]) << 20, command, count - 4);
}
