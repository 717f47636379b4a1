// stay_soak REQUESTS CLIENTS: both ends of a proxy at port 18380 in one process, whose connections stay. Four servers at ports 18381 to 18384 with 8 slots
// each: behind one answer in fifty they close its connection before long, and every two seconds each of the last two falls: it closes all that it has, and
// refuses connections for 300 ms. Half of what they close is reset. So many requests, and so many connections of clients at a time: each asks again and again,
// a quarter of them up to four at once. A tenth sends a body and gets it back; one in fifty leaves: amid its head, once asked, amid its body or amid its
// answer, half by a reset, and another connection takes its place.
//
// All of a request follows from its number, which stands in its target and in a field, as do its answer's size, form and bytes. Either end reads strictly:
// whole messages with the fields that are due, and no byte more. A number is answered once. A server gets it once, and once more, as the first of a
// connection, where a server closed a used one on which it had that request, one that may be repeated, and no byte of its answer had gone. Else than by its
// answer a request may end only so:
// - left: its client left, or along with it where that had asked for more behind it;
// - cut: the answer begins and its connection ends, where its server fell amid that answer;
// - 502 or 503, empty and with Connection: close, where a server fell that had it (named), or else where one of the last two was closed at some moment
//   between its asking and its refusal (by time): a server can't name what it never read, and other tries may have been refused. These are 16 a fall at most,
//   as many as a server's slots and as many requests that had them next.
// What its client asked behind a request that was cut or refused is asked anew by the same number on another connection; no server is to have seen it.
// On standard output stands a line when a tenth was sent, when all were, and when all are answered. Then the servers stay until standard input ends, by which
// all their connections are to be closed; then come the counts. It ends with 1 where anything else came about, which standard error names.
#define _GNU_SOURCE
#include <arpa/inet.h>
#include <errno.h>
#include <fcntl.h>
#include <netinet/tcp.h>
#include <stdarg.h>
#include <stdio.h>
#include <stdlib.h>
#include <string.h>
#include <sys/epoll.h>
#include <sys/ioctl.h>
#include <sys/resource.h>
#include <sys/socket.h>
#include <time.h>
#include <unistd.h>

enum { SERVERS = 4, FILES = 16384, PROXY = 18380, DOWN = 300, UP = 1700, PATIENCE = 60000, LIMIT = 8, MOST = 20000, HEAD = 1024, AT_ONCE = 4, ROOM = 8 * MOST };
enum role { NONE, CLIENT, SERVER, LISTENER, INPUT };
enum leaving { STAYS, AMID_HEAD, ONCE_ASKED, AMID_BODY, AMID_ANSWER, LEAVINGS };
enum fate { MAY_FAIL = 1, MAY_CUT = 2, MAY_COME = 4, LEFT = 8, ENDED = 16 };
enum part { SIZE, SIZE_END, DATA, DATA_CR, DATA_LF, LAST_CR, LAST_LF };

// A message as it comes in: its head, and how much of its body, by its length or in chunks.
struct reader {
    char head[HEAD];
    int got, is_whole, is_wrong, status, framings, hosts, in_chunks, closes, digits;
    enum part part;
    long number, length, body, left;
};

struct connection {
    enum role role;
    long since, goes_on;
    struct reader in;
    char *out;
    long out_size, out_at, may_send;
    int waits_out;
    // A client's: what it asked, and which of it is answered next.
    enum leaving leaves;
    long numbers[AT_ONCE];
    int asked, at, at_once;
    // A server's: the request that it answers, and the one before.
    int server, place, requests, had_body, is_over;
    long number, last, closes_at;
};

static struct connection connections[FILES];
static struct { unsigned char seen, fate; } *of;
static int poller, top, listeners[SERVERS], held[SERVERS][FILES], holds[SERVERS], busy[SERVERS], most[SERVERS];
static long requests, came_up[SERVERS], seen[SERVERS], opened[SERVERS], used[SERVERS];
static long *anew, anew_count, sent, live, connects, codes[600], named[600], cut, left[LEAVINGS], along, again, asked_anew, behind_close;
static long falls, closed_unused, closed_before, closed_amid, closed_behind, repeated, deserted, partial, silent, lost, over, wrong, refused;

static long millis(void) {
    struct timespec now;
    clock_gettime(CLOCK_MONOTONIC, &now);
    return now.tv_sec * 1000 + now.tv_nsec / 1000000;
}

// The first ones of a kind are told in words.
static void tell(long *count, const char *form, ...) {
    va_list words;
    if (++*count > 10) return;
    va_start(words, form);
    vfprintf(stderr, form, words);
    va_end(words);
    fputc('\n', stderr);
}

// --- what a number says ---

static unsigned long mix(long number, int what) {
    unsigned long x = (unsigned long)number * 0x9E3779B97F4A7C15 + (unsigned long)what * 0xD1B54A32D192ED03;
    x = (x ^ x >> 29) * 0xBF58476D1CE4E5B9;
    return x ^ x >> 32;
}

static const char *method_of(long number) {
    static const char *const methods[] = {"POST", "HEAD", "PUT", "DELETE"};
    unsigned long which = mix(number, 1) % 10;
    return which < 4 ? methods[which] : "GET";
}

static int is_post(long number) { return method_of(number)[1] == 'O'; }
static int is_head(long number) { return method_of(number)[0] == 'H'; }
static int comes_in_chunks(long number) { return is_post(number) && mix(number, 2) % 2; }
static int goes_in_chunks(long number) { return is_post(number) ? comes_in_chunks(number) : (int)(mix(number, 3) % 2); }

// An answer's size, which is the body's that a POST sends, too. Some are small, and some are nothing.
static long size_of(long number) {
    long size = mix(number, 4) % 4 ? mix(number, 5) % (MOST + 1) : mix(number, 5) % 16;
    return size == 0 && is_post(number) ? 1 : size;
}

static char byte_of(long number, long at) {
    return (char)(number * 31 + at * 7 + (at >> 8));
}

// --- reading ---

static int has(const char *line, const char *name, const char **value) {
    size_t size = strlen(name);
    if (strncasecmp(line, name, size) || line[size] != ':') return 0;
    *value = line + size + 1 + (line[size + 1] == ' ');
    return 1;
}

// A head's lines, which each end by CRLF, and the empty one behind them. Fields that nobody sent are wrong.
static void read_head(struct reader *in, int is_answer) {
    char *line = in->head, *end = NULL, first[64];
    const char *value;
    long named = 0, target = 0;
    in->is_whole = 1;
    in->head[in->got] = 0;
    if (strlen(in->head) != (size_t)in->got) in->is_wrong = 1;
    for (int at = 0; (end = strstr(line, "\r\n")) && end != line; at++, line = end + 2) {
        *end = 0;
        if (strchr(line, '\n') || strchr(line, '\r')) in->is_wrong = 1;
        if (at == 0 && is_answer) {
            if (sscanf(line, "HTTP/1.1 %3d ", &in->status) != 1 || in->status < 100 || in->status > 599) in->is_wrong = 1, in->status = 0;
        } else if (at == 0) {
            target = strchr(line, '/') ? atol(strchr(line, '/') + 1) : 0;
            snprintf(first, sizeof first, "%s /%ld HTTP/1.1", method_of(target), target);
            if (strcmp(line, first)) in->is_wrong = 1;
        } else if (has(line, "content-length", &value)) in->length = atol(value), in->framings++;
        else if (has(line, "transfer-encoding", &value)) in->in_chunks = 1, in->framings++, in->is_wrong |= strcmp(value, "chunked") != 0;
        else if (has(line, "x-number", &value)) in->is_wrong |= named != 0, named = atol(value);
        else if (has(line, "connection", &value)) in->closes |= strcasecmp(value, "close") == 0;
        else if (has(line, "host", &value) && !is_answer) in->hosts++, in->is_wrong |= strcmp(value, "h") != 0;
        else if (is_answer || (!has(line, "x-class", &value) && !has(line, "x-due", &value))) in->is_wrong = 1;
        *end = '\r';
    }
    if (in->framings > 1 || (!is_answer && (target != named || in->hosts != 1))) in->is_wrong = 1;
    in->number = named;
}

// One byte of a body in chunks, strictly and without trailers. 1: it is over.
static int chunked(struct reader *in, char byte) {
    const char *digits = "0123456789abcdef", *digit = byte ? strchr(digits, byte >= 'A' && byte <= 'F' ? byte | 32 : byte) : NULL;
    switch (in->part) {
    case SIZE:
        if (digit && in->digits < 8) in->left = in->left * 16 + (digit - digits), in->digits++;
        else if (byte == '\r' && in->digits) in->part = SIZE_END;
        else in->is_wrong = 1;
        return 0;
    case SIZE_END:
        in->is_wrong |= byte != '\n';
        in->part = in->left ? DATA : LAST_CR;
        return 0;
    case DATA:
        in->is_wrong |= byte != byte_of(in->number, in->body);
        in->body++;
        if (--in->left == 0) in->part = DATA_CR;
        return 0;
    case DATA_CR: in->is_wrong |= byte != '\r', in->part = DATA_LF; return 0;
    case DATA_LF: in->is_wrong |= byte != '\n', in->part = SIZE, in->digits = 0; return 0;
    case LAST_CR: in->is_wrong |= byte != '\r', in->part = LAST_LF; return 0;
    default: in->is_wrong |= byte != '\n'; return 1;
    }
}

// Takes bytes of a message's head, and answers how many are its own.
static long feed_head(struct reader *in, const char *bytes, long size, int is_answer) {
    long taken = 0;
    while (taken < size && !in->is_whole) {
        if (in->got == HEAD - 1) in->got = 0, in->is_wrong = 1;
        in->head[in->got++] = bytes[taken++];
        if (in->got >= 4 && memcmp(in->head + in->got - 4, "\r\n\r\n", 4) == 0) read_head(in, is_answer);
    }
    return taken;
}

// The same of its body; it is over where `is_over` is 1 then.
static long feed_body(struct reader *in, const char *bytes, long size, int *is_over) {
    long taken = 0;
    *is_over = 0;
    if (in->in_chunks) {
        while (taken < size && !*is_over) *is_over = chunked(in, bytes[taken++]);
        return taken;
    }
    for (; taken < size && in->body < in->length; in->body++)
        if (bytes[taken++] != byte_of(in->number, in->body)) in->is_wrong = 1;
    *is_over = in->body == in->length;
    return taken;
}

// --- connections of either end ---

static void watch(int file, enum role role) {
    struct epoll_event event = {.events = EPOLLIN, .data.fd = file};
    if (epoll_ctl(poller, EPOLL_CTL_ADD, file, &event)) {
        perror("epoll_ctl");
        exit(2);
    }
    memset(&connections[file], 0, sizeof connections[file]);
    connections[file].role = role;
    connections[file].since = millis();
    if (file >= top) top = file + 1;
}

static struct sockaddr_in at(int port) {
    struct sockaddr_in address = {.sin_family = AF_INET, .sin_port = htons(port), .sin_addr.s_addr = htonl(INADDR_LOOPBACK)};
    return address;
}

static void up(int server) {
    struct sockaddr_in address = at(PROXY + 1 + server);
    int file = socket(AF_INET, SOCK_STREAM | SOCK_NONBLOCK, 0), one = 1;
    setsockopt(file, SOL_SOCKET, SO_REUSEADDR, &one, sizeof one);
    if (bind(file, (struct sockaddr *)&address, sizeof address) || listen(file, 4096)) {
        perror("listen");
        exit(2);
    }
    watch(file, LISTENER);
    connections[file].server = server;
    listeners[server] = file;
    came_up[server] = millis();
}

static void end(int file) {
    struct connection *it = &connections[file];
    if (it->role == SERVER) {
        int server = it->server, moved = held[server][--holds[server]];
        held[server][it->place] = moved;
        connections[moved].place = it->place;
        if (it->number) busy[server]--;
    }
    if (it->role == CLIENT) live--;
    it->role = NONE;
    free(it->out);
    it->out = NULL;
    close(file);
}

static void reset_at_close(int file) {
    struct linger at_once = {1, 0};
    setsockopt(file, SOL_SOCKET, SO_LINGER, &at_once, sizeof at_once);
}

static void put(struct connection *it, const char *bytes, long size) {
    memcpy(it->out + it->out_size, bytes, size);
    it->out_size += size;
}

// What may be sent goes as far as the socket takes it, and the poll tells when it takes more.
static int send_more(int file) {
    struct connection *it = &connections[file];
    long limit = it->may_send < it->out_size ? it->may_send : it->out_size;
    while (it->out_at < limit) {
        ssize_t size = send(file, it->out + it->out_at, limit - it->out_at, MSG_NOSIGNAL);
        if (size < 0 && errno == EAGAIN) break;
        if (size < 0) return -1;
        it->out_at += size;
    }
    int waits = it->out_at < limit;
    if (waits != it->waits_out) {
        struct epoll_event event = {.events = waits ? EPOLLIN | EPOLLOUT : EPOLLIN, .data.fd = file};
        epoll_ctl(poller, EPOLL_CTL_MOD, file, &event);
        it->waits_out = waits;
    }
    return 0;
}

static void put_chunk(struct connection *it, long number, long from, long size) {
    char line[32];
    put(it, line, snprintf(line, sizeof line, "%lx\r\n", size));
    for (long i = 0; i < size; i++) it->out[it->out_size++] = byte_of(number, from + i);
    put(it, "\r\n", 2);
}

static void put_body(struct connection *it, long number, long size, int in_chunks) {
    for (long done = 0, part; done < size; done += part) {
        part = in_chunks ? 1 + random() % (random() % 8 ? 4000 : 16) : size;
        if (part > size - done) part = size - done;
        if (in_chunks) put_chunk(it, number, done, part);
        else for (long i = 0; i < part; i++) it->out[it->out_size++] = byte_of(number, done + i);
    }
    if (in_chunks) put(it, "0\r\n\r\n", 5);
}

// --- clients ---

static long put_request(struct connection *it, long number) {
    char text[256], framing[64] = "";
    if (comes_in_chunks(number)) strcpy(framing, "Transfer-Encoding: chunked\r\n");
    else if (is_post(number)) snprintf(framing, sizeof framing, "Content-Length: %ld\r\n", size_of(number));
    int head = snprintf(text, sizeof text, "%s /%ld HTTP/1.1\r\nHost: h\r\nX-Number: %ld\r\nX-Class: %d\r\nX-Due: %d\r\n%s\r\n", method_of(number), number, number,
                        (int)(random() % 3), (int)(random() % 2000) - 1000, framing);
    put(it, text, head);
    if (is_post(number)) put_body(it, number, size_of(number), comes_in_chunks(number));
    return head;
}

// The next requests of a client; those that lost their connection go first. One that leaves is the last.
static void ask(int file) {
    struct connection *it = &connections[file];
    long now = millis(), count = it->at_once > 1 ? 1 + random() % it->at_once : 1, begin = 0, head = 0;
    it->asked = it->at = 0;
    it->leaves = STAYS;
    it->goes_on = 0;
    if (!it->out) it->out = malloc(AT_ONCE * ROOM);
    it->out_size = it->out_at = 0;
    memset(&it->in, 0, sizeof it->in);
    while (it->asked < count && !it->leaves && (anew_count > 0 || sent < requests)) {
        long number = anew_count > 0 ? anew[--anew_count] : ++sent;
        it->numbers[it->asked++] = number;
        begin = it->out_size;
        head = put_request(it, number);
        if (random() % 50 == 0) it->leaves = 1 + random() % 4;
        if (it->leaves == AMID_BODY && !is_post(number)) it->leaves = ONCE_ASKED;
    }
    it->since = now;
    it->may_send = it->out_size;
    if (it->leaves == AMID_HEAD) it->may_send = begin + head / 2;
    if (it->leaves == AMID_BODY) it->may_send = begin + head + (it->out_size - begin - head) / 2;
    // Half of those who leave once asked do so when a server has their request, and half before long.
    if (it->leaves && it->leaves != AMID_ANSWER && (it->leaves != ONCE_ASKED || random() % 2)) it->goes_on = now + 1 + random() % 4;
    if (!it->leaves && random() % 8 == 0) it->may_send = random() % it->out_size, it->goes_on = now + 1 + random() % 3;
    if (send_more(file)) it->may_send = it->out_at;
}

static void come(void) {
    struct sockaddr_in address = at(PROXY);
    int file = socket(AF_INET, SOCK_STREAM, 0), one = 1;
    if (file < 0 || connect(file, (struct sockaddr *)&address, sizeof address)) {
        tell(&refused, "a client wasn't accepted: %s", strerror(errno));
        if (file >= 0) close(file);
        return;
    }
    fcntl(file, F_SETFL, O_NONBLOCK);
    setsockopt(file, IPPROTO_TCP, TCP_NODELAY, &one, sizeof one);
    watch(file, CLIENT);
    connects++, live++;
    connections[file].at_once = random() % 4 ? 1 : AT_ONCE;
    ask(file);
}

// A client's connection has ended; what it asked and wasn't told of is asked anew.
static void end_client(int file, int from) {
    struct connection *it = &connections[file];
    for (int i = from; i < it->asked; i++) {
        if (of[it->numbers[i]].seen) tell(&wrong, "request %ld was behind the end of its connection, and a server saw it", it->numbers[i]);
        anew[anew_count++] = it->numbers[i], asked_anew++;
    }
    end(file);
}

static void leave(int file) {
    struct connection *it = &connections[file];
    left[it->leaves]++;
    along += it->asked - it->at - 1;
    for (int i = it->at; i < it->asked; i++) of[it->numbers[i]].fate |= LEFT;
    if (random() % 2) reset_at_close(file);
    end(file);
}

static void settle(long number) {
    if (of[number].fate & (ENDED | LEFT)) tell(&wrong, "request %ld is answered twice", number);
    of[number].fate |= ENDED;
}

// Whether one of the servers that fall was closed at some moment since then.
static int one_was_down(long since) {
    for (int server = 2; server < SERVERS; server++)
        if (listeners[server] < 0 || came_up[server] >= since) return 1;
    return 0;
}

// A whole answer. 0: the connection has ended with it.
static int judge(int file) {
    struct connection *it = &connections[file];
    struct reader *in = &it->in;
    long number = it->numbers[it->at];
    settle(number);
    codes[in->status]++;
    if (in->status != 200) {
        if (of[number].fate & MAY_FAIL) named[in->status]++;
        else if (!one_was_down(it->since)) tell(&wrong, "request %ld was told %d, and no server was closed meanwhile", number, in->status);
        end_client(file, it->at + 1);
        return 0;
    }
    if (in->closes) {
        behind_close++;
        end_client(file, it->at + 1);
        return 0;
    }
    it->at++;
    memset(in, 0, sizeof *in);
    if (it->at < it->asked) return 1;
    if (it->out_at < it->out_size) tell(&wrong, "request %ld was answered before it was sent", number);
    it->out_size = it->out_at = 0;
    // One that meant to leave and was answered before goes now, in order.
    if (it->leaves || (sent >= requests && anew_count == 0)) {
        end(file);
        return 0;
    }
    it->asked = it->at = 0;
    it->goes_on = random() % 20 ? 0 : millis() + random() % 50;
    return 1;
}

// A head of an answer is its request's, or is a refusal's.
static void look_at_head(struct connection *it, long number) {
    struct reader *in = &it->in;
    int is_good = !in->is_wrong;
    if (in->status == 200) {
        is_good &= in->number == number;
        if (in->framings || !is_head(number)) is_good &= in->framings == 1 && in->in_chunks == goes_in_chunks(number) && (in->in_chunks || in->length == size_of(number));
    } else is_good &= (in->status == 502 || in->status == 503) && in->number == 0 && in->framings == 1 && !in->in_chunks && in->length == 0 && in->closes;
    if (!is_good) tell(&wrong, "this isn't what request %ld is to be answered: %s", number, in->head);
    in->number = number;
    in->is_wrong = 0;
}

static void client(int file) {
    struct connection *it = &connections[file];
    char bytes[16384];
    ssize_t size;
    if (it->waits_out && send_more(file)) it->may_send = it->out_at;
    while ((size = read(file, bytes, it->leaves == AMID_ANSWER ? 100 : sizeof bytes)) > 0) {
        for (long done = 0; done < size;) {
            int is_over = 0;
            if (it->at == it->asked) {
                tell(&wrong, "a client that asked for nothing got %ld bytes: %.200s", (long)(size - done), bytes + done);
                return end(file);
            }
            long number = it->numbers[it->at];
            struct reader *in = &it->in;
            if (!in->is_whole) {
                done += feed_head(in, bytes + done, size - done, 1);
                if (it->leaves == AMID_ANSWER && it->at == it->asked - 1) return leave(file);
                if (!in->is_whole) continue;
                look_at_head(it, number);
            }
            if (is_head(number)) is_over = 1;
            else done += feed_body(in, bytes + done, size - done, &is_over);
            if (in->is_wrong) {
                tell(&wrong, "the bytes of the answer to request %ld aren't its own, about byte %ld", number, in->body);
                settle(number);
                return end_client(file, it->at + 1);
            }
            if (!is_over) continue;
            int is_last = it->at == it->asked - 1;
            if (done < size && (is_last || in->closes || in->status != 200))
                tell(&wrong, "%ld bytes more behind the last answer, to request %ld", (long)(size - done), number);
            if (!judge(file)) return;
        }
    }
    if (size < 0 && errno == EAGAIN) {
        if (it->asked == 0 && it->goes_on == 0) ask(file);
        return;
    }
    if (it->at == it->asked) {
        tell(&lost, "a client that asked for nothing for %ld ms was closed", millis() - it->since);
        return end(file);
    }
    long number = it->numbers[it->at];
    settle(number);
    if (it->in.got && of[number].fate & MAY_CUT) cut++;
    else tell(&lost, "%s to request %ld, which no server closed on", it->in.got ? "the front of an answer alone" : "no answer", number);
    end_client(file, it->at + 1);
}

// --- servers ---

static int is_open(int file) {
    struct tcp_info info;
    socklen_t size = sizeof info;
    return getsockopt(file, IPPROTO_TCP, TCP_INFO, &info, &size) == 0 && info.tcpi_state == TCP_ESTABLISHED;
}

// Requests at a server are at most as many as slots. Those are counted that the proxy still had open when each of them had been found, read or not.
static void count_requests(int server) {
    int found[FILES], count = 0, open = 0;
    char byte;
    for (int i = 0; i < holds[server]; i++) {
        int file = held[server][i];
        struct connection *it = &connections[file];
        if (it->number || it->in.got || recv(file, &byte, 1, MSG_PEEK | MSG_DONTWAIT) > 0) found[count++] = file;
    }
    for (int i = 0; i < count && count > LIMIT; i++) open += is_open(found[i]);
    if (count > LIMIT) count = open;
    if (count > LIMIT) tell(&over, "%d requests at once at server %c", count, 'a' + server);
    if (count > most[server]) most[server] = count;
}

// A request's head has come, and its answer's is put together. 0: it isn't one.
static int begin(int file) {
    struct connection *it = &connections[file];
    struct reader *in = &it->in;
    long number = in->number;
    int is_good = !in->is_wrong && number >= 1 && number <= sent;
    if (is_good && is_post(number)) is_good = in->framings == 1 && in->in_chunks == comes_in_chunks(number) && (in->in_chunks || in->length == size_of(number));
    else if (is_good) is_good = !in->in_chunks && in->length == 0;
    if (!is_good || it->had_body || (it->requests && is_post(number))) {
        tell(&wrong, "server %c got as request %d of a connection, with bodies before %d: %s", 'a' + it->server, it->requests + 1, it->had_body, in->head);
        return 0;
    }
    if (of[number].fate & ENDED) tell(&wrong, "server %c got request %ld when it was answered", 'a' + it->server, number);
    if (of[number].seen && of[number].fate & MAY_COME && it->requests == 0) again++;
    else if (of[number].seen) tell(&wrong, "server %c got request %ld once more", 'a' + it->server, number);
    of[number].fate &= ~MAY_COME;
    of[number].seen = 1;
    seen[it->server]++, busy[it->server]++;
    if (it->requests) used[it->server]++;
    else opened[it->server]++;
    it->requests++;
    it->number = number;
    it->had_body = is_post(number);
    it->is_over = 0;
    if (!it->out) it->out = malloc(ROOM);
    it->out_size = it->out_at = 0;
    char framing[64], text[160];
    if (goes_in_chunks(number)) strcpy(framing, "Transfer-Encoding: chunked\r\n");
    else snprintf(framing, sizeof framing, "Content-Length: %ld\r\n", size_of(number));
    put(it, text, snprintf(text, sizeof text, "HTTP/1.1 200 OK\r\nX-Number: %ld\r\n%s\r\n", number, framing));
    if (!is_post(number) && !is_head(number)) put_body(it, number, size_of(number), goes_in_chunks(number));
    // Some answers begin later, and some pause.
    int waits = random() % 8;
    it->may_send = waits == 0 ? 0 : waits == 1 ? it->out_size / 2 : ROOM;
    it->goes_on = waits < 2 ? millis() + 1 + random() % 4 : 0;
    if (holds[it->server] > LIMIT || busy[it->server] > LIMIT) count_requests(it->server);
    else if (busy[it->server] > most[it->server]) most[it->server] = busy[it->server];
    return 1;
}

// The proxy has closed: amid a request or its answer only where the client left.
static void be_left(int file) {
    struct connection *it = &connections[file];
    if (it->number) {
        deserted++;
        if (!(of[it->number].fate & LEFT)) tell(&wrong, "the proxy closed on request %ld at server %c, whose client hadn't left", it->number, 'a' + it->server);
    } else if (it->in.got) partial++;
    end(file);
}

// Sends on; an answer that is whole leaves its connection to the next request. 0: it has ended.
static int answer_on(int file) {
    struct connection *it = &connections[file];
    if (send_more(file)) return be_left(file), 0;
    if (!it->is_over || it->out_at < it->out_size) return 1;
    busy[it->server]--;
    it->last = it->number;
    it->number = 0;
    it->goes_on = 0;
    memset(&it->in, 0, sizeof it->in);
    if (random() % 50 == 0) it->closes_at = millis() + random() % 4;
    return 1;
}

static void serve(int file) {
    struct connection *it = &connections[file];
    char bytes[16384];
    ssize_t size;
    if (it->waits_out && !answer_on(file)) return;
    while ((size = read(file, bytes, sizeof bytes)) > 0) {
        struct reader *in = &it->in;
        if (it->number && it->is_over) {
            tell(&wrong, "server %c got %ld bytes more before it had answered request %ld", 'a' + it->server, (long)size, it->number);
            return end(file);
        }
        long done = feed_head(in, bytes, size, 0);
        if (!in->is_whole) continue;
        if (!it->number && !begin(file)) return end(file);
        long from = in->body;
        done += feed_body(in, bytes + done, size - done, &it->is_over);
        if (in->is_wrong || done < size) {
            tell(&wrong, "server %c got what isn't request %ld's, or %ld bytes more", 'a' + it->server, it->number, (long)(size - done));
            return end(file);
        }
        // A body goes back while it comes.
        if (is_post(it->number) && in->body > from) {
            if (in->in_chunks) put_chunk(it, it->number, from, in->body - from);
            else for (; from < in->body; from++) it->out[it->out_size++] = byte_of(it->number, from);
        }
        if (is_post(it->number) && it->is_over && in->in_chunks) put(it, "0\r\n\r\n", 5);
        if (!answer_on(file)) return;
    }
    if (size == 0 || errno != EAGAIN) be_left(file);
}

static void take(int listener) {
    int server = connections[listener].server, one = 1;
    for (int file; (file = accept4(listener, NULL, NULL, SOCK_NONBLOCK)) >= 0;) {
        setsockopt(file, IPPROTO_TCP, TCP_NODELAY, &one, sizeof one);
        watch(file, SERVER);
        connections[file].server = server;
        connections[file].place = holds[server];
        held[server][holds[server]++] = file;
    }
}

// A server closes a connection behind an answer, or once the next one is done where that has begun. A request that it has by then is to come again.
static void close_used(int file) {
    struct connection *it = &connections[file];
    int unsent = 0;
    serve(file);
    if (it->role != SERVER || (it->number && it->out_at > 0)) return;
    if (random() % 2 && ioctl(file, TIOCOUTQ, &unsent) == 0 && unsent == 0) reset_at_close(file);
    if (it->number) repeated++, of[it->number].fate |= MAY_COME;
    else closed_behind++;
    end(file);
}

// A server closes all that it has. What came is read first, so that it is known on which requests it closes.
static void down(int server) {
    falls++;
    end(listeners[server]);
    listeners[server] = -1;
    for (int i = holds[server] - 1; i >= 0; i--) {
        int file = held[server][i], resets = random() % 2, unsent = 0;
        struct connection *it = &connections[file];
        serve(file);
        if (it->role != SERVER) continue;
        if (resets) reset_at_close(file);
        if (it->number && it->out_at == 0) {
            closed_before++;
            of[it->number].fate |= MAY_FAIL | (it->requests > 1 ? MAY_COME : 0);
        } else if (it->number) {
            closed_amid++;
            of[it->number].fate |= MAY_FAIL | MAY_CUT;
        } else {
            closed_unused += it->requests > 0 && !it->in.got;
            if (it->last && resets && ioctl(file, TIOCOUTQ, &unsent) == 0 && unsent) of[it->last].fate |= MAY_FAIL | MAY_CUT;
        }
        end(file);
    }
}

// Once a millisecond: those who leave, who sends or answers piece by piece, who thought, and who got nothing for a minute.
static void look_round(void) {
    long now = millis();
    for (int file = 0; file < top; file++) {
        struct connection *it = &connections[file];
        if (it->role == SERVER && it->goes_on && now >= it->goes_on) {
            it->goes_on = 0;
            it->may_send = ROOM;
            answer_on(file);
        }
        if (it->role == SERVER && it->closes_at && now >= it->closes_at) close_used(file);
        if (it->role != CLIENT) continue;
        int is_due = it->goes_on && now >= it->goes_on;
        if (it->asked == 0) {
            if (is_due && (anew_count > 0 || sent < requests)) ask(file);
            else if (is_due || (anew_count == 0 && sent >= requests)) end(file);
        } else if (is_due && it->leaves) leave(file);
        else if (it->leaves == ONCE_ASKED && !it->goes_on && of[it->numbers[it->asked - 1]].seen) leave(file);
        else if (now - it->since > PATIENCE) {
            tell(&silent, "request %ld got no answer for a minute", it->numbers[it->at]);
            end(file);
        } else if (is_due) {
            it->goes_on = 0;
            it->may_send = it->out_size;
            if (send_more(file)) it->may_send = it->out_at;
        }
    }
    for (int server = 2; server < SERVERS; server++) {
        long turn = (now + server * 500) % (UP + DOWN);
        if (turn < DOWN && listeners[server] >= 0) down(server);
        if (turn >= DOWN && listeners[server] < 0) up(server);
    }
}

static void say(const char *text) {
    printf("%s\n", text);
    fflush(stdout);
}

// One line of counts, a server each.
static void row(const char *name, const long *counts) {
    printf("%s", name);
    for (int server = 0; server < SERVERS; server++) printf(" %ld", counts[server]);
    printf("\n");
}

int main(int count, char **words) {
    struct rlimit files = {FILES, FILES};
    struct epoll_event events[256];
    long looked = 0, told = 0, open = 0, left_early = 0, by_time;
    if (count != 3 || setrlimit(RLIMIT_NOFILE, &files)) return 2;
    requests = atol(words[1]);
    long clients = atol(words[2]);
    of = calloc(requests + 1, sizeof *of);
    anew = calloc(requests + 1, sizeof *anew);
    poller = epoll_create1(0);
    for (int server = 0; server < SERVERS; server++) up(server);
    say("up");
    getchar();
    watch(0, INPUT);
    for (int is_open = 1; is_open;) {
        for (long more = clients - live; more > 0 && (sent < requests || anew_count > 0); more--) come();
        if (told == 0 && sent >= requests / 10) say("tenth"), told = 1;
        if (told == 1 && sent >= requests) say("sent"), told = 2;
        if (told == 2 && live == 0 && anew_count == 0) say("answered"), told = 3;
        int ready = epoll_wait(poller, events, 256, 1);
        for (int i = 0; i < ready; i++) {
            int file = events[i].data.fd;
            if (connections[file].role == CLIENT) client(file);
            else if (connections[file].role == SERVER) serve(file);
            else if (connections[file].role == LISTENER) take(file);
            else if (connections[file].role == INPUT) is_open = 0;
        }
        if (millis() != looked) look_round(), looked = millis();
        // After a thousand faults nothing more is asked.
        if (wrong + lost + silent + refused > 1000) requests = sent, anew_count = 0;
    }
    for (int server = 0; server < SERVERS; server++) {
        for (int i = holds[server] - 1; i >= 0; i--) serve(held[server][i]);
        open += holds[server];
    }
    for (int i = 1; i < LEAVINGS; i++) left_early += left[i];
    by_time = codes[502] - named[502] + codes[503] - named[503];
    printf("sent %ld left %ld along %ld cut %ld 200: %ld 502: %ld 503: %ld\n", sent, left_early, along, cut, codes[200], codes[502], codes[503]);
    printf("refusals named 502: %ld 503: %ld, by time 502: %ld 503: %ld; asked anew behind a cut or a refusal %ld\n", named[502], named[503],
           codes[502] - named[502], codes[503] - named[503], asked_anew);
    printf("connections of clients %ld, closed behind an answer %ld; left amid the head %ld, once asked %ld, amid the body %ld, amid the answer %ld\n", connects,
           behind_close, left[AMID_HEAD], left[ONCE_ASKED], left[AMID_BODY], left[AMID_ANSWER]);
    row("asked", seen);
    row("by connections", opened);
    row("on used connections", used);
    printf("servers closed behind an answer %ld, with the next request %ld; asked again %ld; left by the proxy amid a request %ld and a head %ld\n",
           closed_behind, repeated, again, deserted, partial);
    printf("falls %ld: closed unused %ld, before an answer %ld, amid one %ld\n", falls, closed_unused, closed_before, closed_amid);
    printf("wrong %ld lost %ld silent %ld refused %ld over %ld open at the end %ld most", wrong, lost, silent, refused, over, open);
    for (int server = 0; server < SERVERS; server++) printf(" %d", most[server]);
    printf("\n");
    return wrong || lost || silent || refused || over || open || told < 3 || partial > left_early + along || by_time > 2 * LIMIT * falls;
}
