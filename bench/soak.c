// soak REQUESTS CLIENTS: both ends of a proxy at port 18180 in one process. Four servers at ports 18181 to 18184 with 8 slots each, of which the last two
// go down and come up again; so many requests by so many clients at a time, with classes and due dates of their own. A tenth sends a body and gets it back
// while it sends, by length or in chunks, some of it piece by piece; one in fifty leaves: amid its head, once it asked, amid its body or amid its answer,
// and half of those by a reset. Each request has a number, by which its body's bytes and its answer are known. Prints what was sent, what each client got,
// and what the servers saw. It ends with 1 where a client got what isn't its own, the front of an answer alone or nothing, or a server more than its limit.
#define _GNU_SOURCE
#include <arpa/inet.h>
#include <errno.h>
#include <fcntl.h>
#include <netinet/tcp.h>
#include <stdio.h>
#include <stdlib.h>
#include <string.h>
#include <sys/epoll.h>
#include <sys/resource.h>
#include <sys/socket.h>
#include <time.h>
#include <unistd.h>

enum { SERVERS = 4, FILES = 16384, PROXY = 18180, DOWN = 300, UP = 1700, PATIENCE = 60000, LIMIT = 8, MOST = 32768, HEAD = 1024, PIECE = 2048 };
enum role { NONE, CLIENT, SERVER, LISTENER };
enum leaving { STAYS, AMID_HEAD, ONCE_ASKED, AMID_BODY, AMID_ANSWER };

// A message as it comes in: its head, and how much of its body, by its length or in chunks.
struct reader {
    char head[HEAD];
    int got, is_whole, status;
    long number, length, body, left, line;
    int in_chunks, chunk, is_wrong;
};

struct connection {
    enum role role;
    enum leaving leaves;
    int server, waits_out, echoes;
    long since, number, may_send;
    struct reader in;
    char *out;
    long out_size, out_at;
};

static struct connection connections[FILES];
static int poller, listeners[SERVERS], served[SERVERS], most[SERVERS];
static long asked[SERVERS];
static long sent, left_early, live, codes[600], cut, silent, refused, wrong, over, echoed;

static long millis(void) {
    struct timespec now;
    clock_gettime(CLOCK_MONOTONIC, &now);
    return now.tv_sec * 1000 + now.tv_nsec / 1000000;
}

static char byte_of(long number, long at) {
    return (char)(number * 31 + at * 7 + (at >> 8));
}

static void watch(int file, enum role role, unsigned events) {
    struct epoll_event event = {.events = events, .data.fd = file};
    epoll_ctl(poller, EPOLL_CTL_ADD, file, &event);
    memset(&connections[file], 0, sizeof connections[file]);
    connections[file].role = role;
    connections[file].since = millis();
}

static struct sockaddr_in at(int port) {
    struct sockaddr_in address = {.sin_family = AF_INET, .sin_port = htons(port), .sin_addr.s_addr = htonl(INADDR_LOOPBACK)};
    return address;
}

static void up(int server) {
    struct sockaddr_in address = at(PROXY + 1 + server);
    int file = socket(AF_INET, SOCK_STREAM | SOCK_NONBLOCK, 0), one = 1;
    setsockopt(file, SOL_SOCKET, SO_REUSEADDR, &one, sizeof one);
    if (bind(file, (struct sockaddr *)&address, sizeof address) || listen(file, 4096)) {
        perror("listen");
        exit(2);
    }
    watch(file, LISTENER, EPOLLIN);
    connections[file].server = server;
    listeners[server] = file;
}

static void end(int file) {
    struct connection *it = &connections[file];
    if (it->role == SERVER) served[it->server]--;
    it->role = NONE;
    free(it->out);
    it->out = NULL;
    close(file);
}

static void leave(int file) {
    struct linger at_once = {1, 0};
    if (random() % 2) setsockopt(file, SOL_SOCKET, SO_LINGER, &at_once, sizeof at_once);
    left_early++, live--;
    end(file);
}

static void put(struct connection *it, const char *bytes, long size) {
    memcpy(it->out + it->out_size, bytes, size);
    it->out_size += size;
}

// What may be sent goes as far as the socket takes it, and the poll tells when it takes more.
static int send_more(int file) {
    struct connection *it = &connections[file];
    long limit = it->may_send < it->out_size ? it->may_send : it->out_size;
    while (it->out_at < limit) {
        ssize_t size = send(file, it->out + it->out_at, limit - it->out_at, MSG_NOSIGNAL);
        if (size < 0 && errno == EAGAIN) break;
        if (size < 0) return -1;
        it->out_at += size;
    }
    int waits = it->out_at < limit;
    if (waits != it->waits_out) {
        struct epoll_event event = {.events = waits ? EPOLLIN | EPOLLOUT : EPOLLIN, .data.fd = file};
        epoll_ctl(poller, EPOLL_CTL_MOD, file, &event);
        it->waits_out = waits;
    }
    return 0;
}

static void add_body(struct connection *it, long size, int in_chunks) {
    char line[32];
    for (long done = 0; done < size;) {
        long part = size;
        if (in_chunks) {
            part = 1 + random() % 4000;
            if (part > size - done) part = size - done;
            put(it, line, snprintf(line, sizeof line, "%lx\r\n", part));
        }
        for (long i = 0; i < part; i++) it->out[it->out_size++] = byte_of(it->number, done++);
        if (in_chunks) put(it, "\r\n", 2);
    }
    if (in_chunks) put(it, "0\r\n\r\n", 5);
}

static void come(void) {
    struct sockaddr_in address = at(PROXY);
    int file = socket(AF_INET, SOCK_STREAM, 0), has_body = random() % 10 == 0, in_chunks = random() % 2;
    long size = has_body ? 1 + random() % MOST : 0;
    if (file < 0 || connect(file, (struct sockaddr *)&address, sizeof address)) {
        refused++;
        if (file >= 0) close(file);
        return;
    }
    fcntl(file, F_SETFL, O_NONBLOCK);
    watch(file, CLIENT, EPOLLIN);
    struct connection *it = &connections[file];
    char text[256], framing[64] = "";
    it->number = ++sent;
    live++;
    if (has_body && in_chunks) strcpy(framing, "Transfer-Encoding: chunked\r\n");
    else if (has_body) snprintf(framing, sizeof framing, "Content-Length: %ld\r\n", size);
    int head = snprintf(text, sizeof text, "%s /%ld HTTP/1.1\r\nHost: h\r\nX-Class: %d\r\nX-Due: %d\r\n%s\r\n", has_body ? "POST" : "GET", it->number,
                        (int)(random() % 3), (int)(random() % 2000) - 1000, framing);
    it->out = malloc(head + 2 * size + 4096);
    put(it, text, head);
    it->in.length = -1;
    it->echoes = has_body;
    if (has_body) add_body(it, size, in_chunks);
    if (random() % 50 == 0) it->leaves = 1 + random() % 4;
    if (it->leaves == AMID_BODY && !has_body) it->leaves = ONCE_ASKED;
    it->may_send = it->out_size;
    if (it->leaves == AMID_HEAD) it->may_send = head / 2;
    else if (it->leaves == AMID_BODY) it->may_send = head + (it->out_size - head) / 2;
    else if (has_body && random() % 4 == 0) it->may_send = head;
    if (send_more(file)) it->may_send = it->out_at;
}

// One byte of a body in chunks: of a line of a size, of what a chunk holds, or behind it. 1: it is over.
static int chunked(struct reader *in, char byte) {
    switch (in->chunk) {
    case 0:
        if (byte == '\n') in->chunk = in->left ? 1 : 3, in->line = 0;
        else if (byte != '\r') in->left = in->left * 16 + (byte <= '9' ? byte - '0' : (byte | 32) - 'a' + 10);
        return 0;
    case 1:
        if (byte != byte_of(in->number, in->body)) in->is_wrong = 1;
        in->body++;
        if (--in->left == 0) in->chunk = 2;
        return 0;
    case 2:
        if (byte == '\n') in->chunk = 0;
        return 0;
    default:
        if (byte == '\n' && in->line == 0) return 1;
        in->line = byte == '\n' ? 0 : in->line + (byte != '\r');
        return 0;
    }
}

static void read_head(struct reader *in, int is_answer) {
    char *field;
    in->is_whole = 1;
    in->head[in->got] = 0;
    in->status = is_answer ? atoi(in->head + 9) : 0;
    if (!is_answer) in->number = atol(strchr(in->head, '/') + 1);
    in->length = is_answer ? -1 : 0;
    if ((field = strcasestr(in->head, "\r\ncontent-length:"))) in->length = atol(field + 17);
    in->in_chunks = strcasestr(in->head, "\r\ntransfer-encoding:") != NULL;
}

// Takes bytes of a message, and answers how many are its own; it is over where `is_over` is 1 then.
static long feed(struct reader *in, const char *bytes, long size, int is_answer, int *is_over) {
    long used = 0;
    *is_over = 0;
    while (used < size && !in->is_whole) {
        if (in->got == HEAD - 1) in->got = 0, in->is_wrong = 1;
        in->head[in->got++] = bytes[used++];
        if (in->got >= 4 && memcmp(in->head + in->got - 4, "\r\n\r\n", 4) == 0) read_head(in, is_answer);
    }
    if (!in->is_whole) return used;
    if (in->in_chunks)
        while (used < size && !*is_over) *is_over = chunked(in, bytes[used++]);
    else {
        for (; used < size && in->body < in->length; in->body++)
            if (bytes[used++] != byte_of(in->number, in->body)) in->is_wrong = 1;
        *is_over = in->body == in->length;
    }
    return used;
}

static void judge(int file) {
    struct connection *it = &connections[file];
    int code = it->in.status;
    if (code >= 100 && code < 600) codes[code]++;
    if (code == 200 && it->in.is_wrong) wrong++;
    if (code == 200 && it->echoes) echoed++;
    live--;
    end(file);
}

static void client(int file, unsigned events) {
    struct connection *it = &connections[file];
    char bytes[16384];
    int is_over = 0;
    ssize_t size;
    if (events & EPOLLOUT && send_more(file)) it->may_send = it->out_at;
    it->in.number = it->number;
    while ((size = read(file, bytes, sizeof bytes)) > 0) {
        long used = feed(&it->in, bytes, size, 1, &is_over);
        // A refusal's text is none of a server's bodies.
        if (it->in.status != 200) it->in.is_wrong = 0;
        if (it->leaves == AMID_ANSWER) return leave(file);
        if (used < size) wrong++;
        if (is_over) return judge(file);
    }
    if (size < 0 && errno == EAGAIN) return;
    if (it->in.is_whole && it->in.status != 200) return judge(file);
    cut++, live--;
    end(file);
}

// The head of an answer: of the same length as the request, or in chunks as it is.
static void begin_answer(struct connection *it) {
    char text[128];
    it->number = it->in.number;
    it->out = malloc(8 * MOST);
    it->may_send = 8 * MOST;
    asked[it->server]++;
    const char *form = it->in.in_chunks ? "HTTP/1.1 200 OK\r\nTransfer-Encoding: chunked\r\n\r\n" : "HTTP/1.1 200 OK\r\nContent-Length: %ld\r\n\r\n";
    put(it, text, snprintf(text, sizeof text, form, it->in.length ? it->in.length : 4));
}

static void answer(struct connection *it, long from, int is_over) {
    char line[32];
    long size = it->in.body - from;
    if (!it->in.in_chunks && it->in.length == 0) from = 0, size = 4;
    if (size && it->in.in_chunks) put(it, line, snprintf(line, sizeof line, "%lx\r\n", size));
    for (long i = 0; i < size; i++) it->out[it->out_size++] = byte_of(it->number, from + i);
    if (size && it->in.in_chunks) put(it, "\r\n", 2);
    if (is_over && it->in.in_chunks) put(it, "0\r\n\r\n", 5);
}

static void serve(int file, unsigned events) {
    struct connection *it = &connections[file];
    char bytes[4096];
    int is_over = 0, had_head = it->in.is_whole;
    if (it->waits_out) {
        if (events & (EPOLLERR | EPOLLHUP) || send_more(file)) return end(file);
        if (it->waits_out) return;
        if (it->echoes) return end(file);
    }
    ssize_t size = read(file, bytes, sizeof bytes);
    if (size < 0 && errno == EAGAIN) return;
    if (size <= 0) return end(file);
    long from = it->in.body;
    feed(&it->in, bytes, size, 0, &is_over);
    if (!it->in.is_whole) return;
    if (!had_head) begin_answer(it);
    if (it->in.is_wrong) wrong++;
    answer(it, from, is_over);
    if (send_more(file)) return end(file);
    // It is closed once all of its answer went.
    it->echoes = is_over;
    if (is_over && !it->waits_out) end(file);
}

// Whether the proxy still has this connection open, be there bytes of it unread or not: 2 where it asked for something, and 1 where it didn't, as a check
// doesn't.
static int is_open(int file) {
    struct tcp_info info;
    socklen_t size = sizeof info;
    char byte;
    if (getsockopt(file, IPPROTO_TCP, TCP_INFO, &info, &size) || info.tcpi_state != TCP_ESTABLISHED) return 0;
    return connections[file].in.got > 0 || recv(file, &byte, 1, MSG_PEEK | MSG_DONTWAIT) > 0 ? 2 : 1;
}

// Requests are at most as many as slots, and with a check there may be one connection more.
static void count_open(int server) {
    int requests = 0, all = 0;
    for (int file = 0; file < FILES; file++) {
        if (connections[file].role != SERVER || connections[file].server != server) continue;
        int open = is_open(file);
        requests += open == 2;
        all += open > 0;
    }
    if (requests > LIMIT || all > LIMIT + 1) over++;
    if (requests > most[server]) most[server] = requests;
}

static void take(int file) {
    int server = connections[file].server;
    for (int client; (client = accept4(file, NULL, NULL, SOCK_NONBLOCK)) >= 0;) {
        watch(client, SERVER, EPOLLIN);
        connections[client].server = server;
        served[server]++;
        if (served[server] >= LIMIT) count_open(server);
    }
}

// Those who leave do so after some milliseconds, those who send piece by piece send one, and who got nothing for a minute counts as silent.
static void look_round(void) {
    long now = millis();
    for (int file = 0; file < FILES; file++) {
        struct connection *it = &connections[file];
        if (it->role != CLIENT) continue;
        if (it->leaves && it->leaves != AMID_ANSWER && now - it->since >= 3) leave(file);
        else if (now - it->since > PATIENCE) silent++, live--, end(file);
        else if (!it->leaves && it->may_send < it->out_size && !it->waits_out) {
            it->may_send += PIECE;
            if (send_more(file)) it->may_send = it->out_size;
        }
    }
    for (int server = 2; server < SERVERS; server++) {
        long turn = (now + server * 500) % (UP + DOWN);
        if (turn < DOWN && listeners[server] >= 0) end(listeners[server]), listeners[server] = -1;
        if (turn >= DOWN && listeners[server] < 0) up(server);
    }
}

int main(int count, char **words) {
    struct rlimit files = {FILES, FILES};
    struct epoll_event events[256];
    long requests = atol(words[1]), clients = atol(words[2]), looked = 0;
    if (count != 3 || setrlimit(RLIMIT_NOFILE, &files)) return 2;
    poller = epoll_create1(0);
    for (int server = 0; server < SERVERS; server++) up(server);
    printf("up\n");
    fflush(stdout);
    getchar();
    while (sent < requests || live > 0) {
        for (long more = clients - live; more > 0 && sent < requests; more--) come();
        int ready = epoll_wait(poller, events, 256, 1);
        for (int i = 0; i < ready; i++) {
            int file = events[i].data.fd;
            if (connections[file].role == CLIENT) client(file, events[i].events);
            else if (connections[file].role == SERVER) serve(file, events[i].events);
            else if (connections[file].role == LISTENER) take(file);
        }
        if (millis() != looked) look_round(), looked = millis();
    }
    printf("sent %ld left %ld cut %ld silent %ld refused %ld", sent, left_early, cut, silent, refused);
    for (int code = 100; code < 600; code++)
        if (codes[code]) printf(" %d: %ld", code, codes[code]);
    printf("\nasked");
    for (int server = 0; server < SERVERS; server++) printf(" %ld", asked[server]);
    printf("\nechoed %ld wrong %ld over %ld most", echoed, wrong, over);
    for (int server = 0; server < SERVERS; server++) printf(" %d", most[server]);
    printf("\n");
    return silent > 0 || wrong > 0 || over > 0 || cut > 0;
}
