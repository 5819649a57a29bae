/* origin PORT SAMPLES...: a fan-out origin on loopback. One live stream comes on standard input; each client of
 * http://127.0.0.1:PORT/SAMPLES gets it recut by so many samples a fragment: the moov and what is before it, and
 * then all from the next fragment on. One thread. No client has a queue: what waits is in the room of its cut, from
 * which one buffer serves all. Memory is bounded: LIMIT and HEAD for each cut. A client that lags so far that its cut
 * takes no more input is dropped. A cut that isn't there is 404, and a HEAD is answered by the header alone.
 * cc origin.c -lfmp4 */
#include <arpa/inet.h>
#include <errno.h>
#include <fcntl.h>
#include <fmp4.h>
#include <poll.h>
#include <signal.h>
#include <stdio.h>
#include <stdlib.h>
#include <string.h>
#include <sys/socket.h>
#include <unistd.h>

/* The boxes of a cut have a MiB beside its room, of which half may wait for clients. */
enum { CUTS = 8, CLIENTS = 64, INPUT = 65536, ROOM = 8 << 20, LIMIT = ROOM + (1 << 20), HEAD = 1 << 20 };

/* A cut of the live stream. Of its output `gone` bytes were dropped, and those before `end` were written. */
struct cut {
    uint32_t samples;
    struct fmp4_stream stream;
    unsigned char *head; /* all before the first moof */
    size_t head_len;
    uint64_t gone, end, next_box; /* `next_box`: where the next box begins whose header hasn't come */
    int has_moof, is_over;
};

/* A client: `begun` bytes of the reply and of the head were sent, and its output up to `at`. `cut` is -1 until its
 * request is read, and it is live from a moof on. */
struct client {
    int fd, cut, is_live;
    char request[1024];
    size_t request_len, begun;
    uint64_t at;
};

static struct cut cuts[CUTS];
static struct client clients[CLIENTS];
static int cut_count;
static const char reply_ok[] = "HTTP/1.1 200 OK\r\nContent-Type: video/mp4\r\nConnection: close\r\n\r\n";
enum { REPLY = sizeof reply_ok - 1 };

static void drop(struct client *client) {
    close(client->fd);
    memset(client, 0, sizeof *client);
    client->fd = -1;
}

static int is_of(const struct client *client, const struct cut *cut) {
    return client->fd >= 0 && client->cut >= 0 && &cuts[client->cut] == cut;
}

/* Sends what goes at once: how many bytes. Where the connection fails, the client is dropped. */
static size_t send_some(struct client *client, const void *bytes, size_t len) {
    size_t sent = 0;
    while (sent < len) {
        ssize_t n = send(client->fd, (const char *)bytes + sent, len - sent, MSG_NOSIGNAL | MSG_DONTWAIT);
        if (n < 0 && errno == EINTR) continue;
        if (n < 0 && errno == EAGAIN) break;
        if (n <= 0) { drop(client); return 0; }
        sent += (size_t)n;
    }
    return sent;
}

/* Sends a client what it has not got: the reply, the head, and of the output that waits in `out` all from `at` on. A
 * client that has all of a cut that is over is done. */
static void send_on(struct client *client, const struct cut *cut, const unsigned char *out) {
    size_t begin = REPLY + (client->is_live ? cut->head_len : 0);
    if (client->begun < REPLY) client->begun += send_some(client, reply_ok + client->begun, REPLY - client->begun);
    if (client->begun >= REPLY && client->begun < begin)
        client->begun += send_some(client, cut->head + (client->begun - REPLY), begin - client->begun);
    if (client->fd < 0 || client->begun < begin) return;
    if (client->is_live) client->at += send_some(client, out + (client->at - cut->gone), cut->end - client->at);
    if (client->fd >= 0 && cut->is_over && (!client->is_live || client->at == cut->end)) drop(client);
}

/* Keeps what comes before the first moof. */
static void keep_head(struct cut *cut, const unsigned char *out, uint64_t end) {
    if (cut->has_moof || end <= cut->head_len) return;
    if (end > HEAD) { cut->is_over = 1; return; }
    memcpy(cut->head + cut->head_len, out + (cut->head_len - cut->gone), end - cut->head_len);
    cut->head_len = end;
}

static uint64_t number(const unsigned char *bytes, size_t len) {
    uint64_t n = 0;
    for (size_t i = 0; i < len; i++) n = n << 8 | bytes[i];
    return n;
}

/* Goes through the boxes whose header has come. At a moof the clients that wait come in. */
static void go_through(struct cut *cut, const unsigned char *out) {
    while (!cut->is_over && cut->next_box <= cut->end && cut->end - cut->next_box >= 8) {
        const unsigned char *header = out + (cut->next_box - cut->gone);
        uint64_t size = number(header, 4);
        if (size == 1 && cut->end - cut->next_box < 16) return;
        if (size == 1) size = number(header + 8, 8);
        keep_head(cut, out, cut->next_box);
        if (memcmp(header + 4, "moof", 4) == 0) {
            cut->has_moof = 1;
            for (struct client *it = clients; it < clients + CLIENTS; it++)
                if (is_of(it, cut) && !it->is_live) it->is_live = 1, it->at = cut->next_box;
        }
        cut->next_box = size ? cut->next_box + size : UINT64_MAX;
    }
    keep_head(cut, out, cut->next_box < cut->end ? cut->next_box : cut->end);
}

/* Sends the output that waits, and drops of it what no client is still to be sent. */
static void serve_cut(struct cut *cut) {
    static unsigned char out[ROOM];
    size_t n = 0;
    fmp4_peek(&cut->stream, out, sizeof out, &n);
    cut->end = cut->gone + n;
    go_through(cut, out);
    uint64_t keep = cut->next_box < cut->end ? cut->next_box : cut->end;
    for (struct client *it = clients; it < clients + CLIENTS; it++) {
        if (is_of(it, cut)) send_on(it, cut, out);
        if (is_of(it, cut) && it->is_live && it->at < keep) keep = it->at;
    }
    fmp4_skip(&cut->stream, keep - cut->gone, &n);
    cut->gone += n;
}

/* Drops the clients that lag by more than a quarter of the room. */
static void drop_slow(struct cut *cut) {
    for (struct client *it = clients; it < clients + CLIENTS; it++)
        if (is_of(it, cut) && it->is_live && cut->end - it->at > ROOM / 4) drop(it);
    serve_cut(cut);
}

/* The next input of the live stream, or its end. */
static void feed_all(const unsigned char *input, size_t len) {
    for (struct cut *cut = cuts; cut < cuts + cut_count; cut++) {
        struct fmp4_report report = {0};
        uint32_t answer = FMP4_OK;
        for (size_t at = 0, n = 0; at < len && answer <= FMP4_FULL && !cut->is_over; at += n) {
            answer = fmp4_feed(&cut->stream, input + at, len - at, &n);
            if (answer == FMP4_FULL) serve_cut(cut);
            if (answer == FMP4_FULL && cut->end - cut->gone > ROOM / 2) drop_slow(cut);
        }
        if (cut->is_over) continue;
        if (len == 0 || answer > FMP4_FULL) {
            answer = fmp4_finish(&cut->stream, &report);
            cut->is_over = 1;
            if (answer == FMP4_FAULT)
                fprintf(stderr, "origin: rule %u at %llu\n", (unsigned)report.rule, (unsigned long long)report.offset);
        }
        serve_cut(cut);
    }
}

#define WITHOUT_BODY(status) "HTTP/1.1 " status "\r\nContent-Length: 0\r\nConnection: close\r\n\r\n"

/* Answers a client by a header alone, and is done with it. */
static void reply(struct client *client, const char *header) {
    send(client->fd, header, strlen(header), MSG_NOSIGNAL | MSG_DONTWAIT);
    drop(client);
}

/* Reads a request, such as GET /15 HTTP/1.1. */
static void read_request(struct client *client) {
    char *end = client->request + client->request_len;
    ssize_t n = recv(client->fd, end, sizeof client->request - 1 - client->request_len, MSG_DONTWAIT);
    if (n < 0 && (errno == EAGAIN || errno == EINTR)) return;
    if (n <= 0) { drop(client); return; }
    if (client->cut >= 0) { client->request_len = 0; return; }
    client->request_len += (size_t)n;
    client->request[client->request_len] = 0;
    if (!strstr(client->request, "\r\n\r\n")) {
        if (client->request_len + 1 == sizeof client->request) drop(client);
        return;
    }
    int is_head = strncmp(client->request, "HEAD /", 6) == 0, cut = -1;
    if (!is_head && strncmp(client->request, "GET /", 5) != 0) {
        reply(client, WITHOUT_BODY("501 Not Implemented"));
        return;
    }
    unsigned long samples = strtoul(client->request + (is_head ? 6 : 5), NULL, 10);
    for (int i = 0; i < cut_count; i++)
        if (cuts[i].samples == samples && !cuts[i].is_over) cut = i;
    client->request_len = 0;
    if (cut < 0) { reply(client, WITHOUT_BODY("404 Not Found")); return; }
    if (is_head) { reply(client, reply_ok); return; }
    client->cut = cut;
}

static void take_client(int listener) {
    int fd = accept(listener, NULL, NULL);
    if (fd < 0) return;
    for (int i = 0; i < CLIENTS; i++)
        if (clients[i].fd < 0) { clients[i].fd = fd; clients[i].cut = -1; return; }
    close(fd);
}

static int listen_on(int port) {
    int fd = socket(AF_INET, SOCK_STREAM, 0), yes = 1;
    struct sockaddr_in at = {.sin_family = AF_INET, .sin_port = htons((uint16_t)port)};
    at.sin_addr.s_addr = htonl(INADDR_LOOPBACK);
    setsockopt(fd, SOL_SOCKET, SO_REUSEADDR, &yes, sizeof yes);
    return fd >= 0 && bind(fd, (struct sockaddr *)&at, sizeof at) == 0 && listen(fd, CLIENTS) == 0 ? fd : -1;
}

/* Whether some client is still to be sent something. */
static int are_waiting(void) {
    for (int i = 0; i < CLIENTS; i++) if (clients[i].fd >= 0 && clients[i].cut >= 0) return 1;
    return 0;
}

/* What a client is polled for: requests, and room for what it has not got. */
static short events_of(const struct client *client) {
    if (client->fd < 0 || client->cut < 0) return POLLIN;
    const struct cut *cut = &cuts[client->cut];
    size_t begin = REPLY + (client->is_live ? cut->head_len : 0);
    return client->begun < begin || (client->is_live && client->at < cut->end) ? POLLIN | POLLOUT : POLLIN;
}

static void serve(int listener) {
    static unsigned char input[INPUT];
    int is_fed = 1;
    while (is_fed || are_waiting()) {
        struct pollfd polls[CLIENTS + 2] = {{.fd = listener, .events = POLLIN},
                                            {.fd = is_fed ? 0 : -1, .events = POLLIN}};
        int goes_on[CUTS] = {0};
        for (int i = 0; i < CLIENTS; i++)
            polls[i + 2] = (struct pollfd){.fd = clients[i].fd, .events = events_of(&clients[i])};
        if (poll(polls, CLIENTS + 2, 10000) < 0 && errno != EINTR) return;
        for (int i = 0; i < CLIENTS; i++) {
            struct client *c = &clients[i];
            if (c->fd >= 0 && polls[i + 2].revents & (POLLIN | POLLHUP | POLLERR)) read_request(c);
            if (c->fd >= 0 && c->cut >= 0 && polls[i + 2].revents & POLLOUT) goes_on[c->cut] = 1;
        }
        for (int i = 0; i < cut_count; i++) if (goes_on[i]) serve_cut(&cuts[i]);
        if (polls[0].revents & POLLIN) take_client(listener);
        if (polls[1].revents & (POLLIN | POLLHUP)) {
            ssize_t n = read(0, input, sizeof input);
            if (n < 0 && errno == EINTR) continue;
            is_fed = n > 0;
            feed_all(input, n > 0 ? (size_t)n : 0);
        }
    }
}

int main(int argc, char **argv) {
    if (argc < 3 || argc > CUTS + 2) return fputs("origin PORT SAMPLES...\n", stderr), 64;
    int listener = listen_on(atoi(argv[1]));
    if (listener < 0) return perror("origin"), 1;
    for (int i = 0; i < CLIENTS; i++) clients[i].fd = -1;
    for (int i = 2; i < argc; i++) {
        struct cut *cut = &cuts[cut_count++];
        cut->samples = (uint32_t)strtoul(argv[i], NULL, 10);
        cut->head = malloc(HEAD);
        if (!cut->head || fmp4_split_open(&cut->stream, cut->samples, 0, 0, LIMIT, ROOM))
            return fputs("origin: no such cut\n", stderr), 64;
    }
    serve(listener);
    for (int i = 0; i < cut_count; i++) fmp4_close(&cuts[i].stream), free(cuts[i].head);
    close(listener);
    return 0;
}
