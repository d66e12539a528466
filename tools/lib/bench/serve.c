/* A plain server to compare with: accepts on loopback, reads a request to the end of its body, writes the bytes of a
   file in answer, and closes; one connection after another, and nothing read into or decided.

     serve FILE COUNT    prints LISTENING 127.0.0.1:port, on a port that the system chooses, and ends after this many

   It ends a response as `opcmds serve` does: it shuts its side and waits for the peer to close, so that no response is
   lost. Driven by tools/bench-serve. */
#define _GNU_SOURCE
#include <arpa/inet.h>
#include <netinet/in.h>
#include <stdio.h>
#include <stdlib.h>
#include <string.h>
#include <strings.h>
#include <sys/socket.h>
#include <unistd.h>

static void fail(const char *what) {
    perror(what);
    exit(3);
}

static char response[1 << 20], request[1 << 17];
static size_t length;

static void read_response(const char *path) {
    FILE *file = fopen(path, "rb");
    if (!file) fail(path);
    length = fread(response, 1, sizeof response, file);
    fclose(file);
}

static int listening(void) {
    struct sockaddr_in address = {.sin_family = AF_INET, .sin_addr.s_addr = htonl(INADDR_LOOPBACK)};
    socklen_t size = sizeof address;
    int listener = socket(AF_INET, SOCK_STREAM | SOCK_CLOEXEC, 0);
    if (listener < 0 || bind(listener, (struct sockaddr *)&address, size) || listen(listener, 128)) fail("listen");
    if (getsockname(listener, (struct sockaddr *)&address, &size)) fail("port");
    printf("LISTENING 127.0.0.1:%d\n", ntohs(address.sin_port));
    fflush(stdout);
    return listener;
}

/* How many bytes the request has, once its head is there, by its Content-Length. */
static size_t whole(size_t got) {
    char *end = memmem(request, got, "\r\n\r\n", 4);
    if (!end) return sizeof request;
    size_t body = 0;
    for (char *line = request; line < end; line = (char *)memchr(line, '\n', end + 4 - line) + 1)
        if (!strncasecmp(line, "Content-Length:", 15)) body = strtoul(line + 15, 0, 10);
    return end + 4 - request + body;
}

static int read_request(int peer) {
    size_t got = 0;
    while (got < whole(got)) {
        ssize_t more = read(peer, request + got, sizeof request - 1 - got);
        if (more <= 0) return 0;
        request[got += more] = 0;
    }
    return 1;
}

static void write_response(int peer) {
    for (size_t put = 0; put < length;) {
        ssize_t more = write(peer, response + put, length - put);
        if (more <= 0) return;
        put += more;
    }
}

static void read_away(int peer) {
    shutdown(peer, SHUT_WR);
    while (read(peer, request, sizeof request) > 0) {
    }
}

int main(int count, char **words) {
    if (count != 3) return fprintf(stderr, "FILE COUNT\n"), 2;
    read_response(words[1]);
    int listener = listening();
    for (long left = atol(words[2]); left > 0; left--) {
        int peer = accept4(listener, 0, 0, SOCK_CLOEXEC);
        if (peer < 0) fail("accept");
        if (read_request(peer)) write_response(peer), read_away(peer);
        close(peer);
    }
    return 0;
}
