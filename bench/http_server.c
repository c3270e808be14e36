// A server for bench/http.sh: answers each request on 127.0.0.1 with the same 200 of two bytes, one request a connection.
// Usage: http_server PORT PROCESSES    (PORT 0 takes a free one; the port is printed once it listens)
#include <arpa/inet.h>
#include <netinet/in.h>
#include <netinet/tcp.h>
#include <signal.h>
#include <stdio.h>
#include <stdlib.h>
#include <string.h>
#include <sys/socket.h>
#include <unistd.h>

static const char response[] = "HTTP/1.1 200 OK\r\nContent-Type: text/plain\r\nContent-Length: 2\r\nConnection: close\r\n\r\nhi";

static void serve(int listener) {
    for (;;) {
        int peer = accept(listener, 0, 0);
        if (peer < 0)
            continue;
        char request[8192];
        size_t size = 0;
        for (;;) {
            ssize_t count = read(peer, request + size, sizeof request - 1 - size);
            if (count <= 0)
                break;
            size += (size_t)count;
            request[size] = 0;
            if (strstr(request, "\r\n\r\n")) {
                if (write(peer, response, sizeof response - 1) < 0)
                    break;
                break;
            }
        }
        close(peer);
    }
}

int main(int words, char **word) {
    int port = words > 1 ? atoi(word[1]) : 0, processes = words > 2 ? atoi(word[2]) : 4, on = 1;
    int listener = socket(AF_INET, SOCK_STREAM, 0);
    struct sockaddr_in at = {.sin_family = AF_INET, .sin_port = htons((unsigned short)port), .sin_addr.s_addr = htonl(INADDR_LOOPBACK)};
    socklen_t size = sizeof at;
    setsockopt(listener, SOL_SOCKET, SO_REUSEADDR, &on, sizeof on);
    if (bind(listener, (struct sockaddr *)&at, sizeof at) || listen(listener, 4096) || getsockname(listener, (struct sockaddr *)&at, &size)) {
        perror("http_server");
        return 1;
    }
    signal(SIGPIPE, SIG_IGN);
    printf("%d\n", ntohs(at.sin_port));
    fflush(stdout);
    for (int child = 1; child < processes; child++)
        if (fork() == 0)
            serve(listener);
    serve(listener);
}
