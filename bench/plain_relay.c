/* What a relay alone takes: hands on what comes from one connection to another, both ways, until both have ended. It looks at nothing and writes
 * nothing down. Listens at a port of 127.0.0.1 for one connection, and connects it to another port.
 *
 *     plain_relay LISTEN TARGET */
#include <arpa/inet.h>
#include <netinet/in.h>
#include <netinet/tcp.h>
#include <poll.h>
#include <stdint.h>
#include <stdlib.h>
#include <sys/socket.h>
#include <unistd.h>

enum { ROOM = 65536 };

static struct sockaddr_in at(const char *port)
{
    struct sockaddr_in at = {.sin_family = AF_INET, .sin_addr.s_addr = htonl(INADDR_LOOPBACK), .sin_port = htons((uint16_t)atoi(port))};
    return at;
}

static int put(int to, const uint8_t *bytes, ssize_t count)
{
    while (count > 0) {
        ssize_t written = write(to, bytes, (size_t)count);
        if (written <= 0)
            return 0;
        bytes += written;
        count -= written;
    }
    return 1;
}

int main(int count, char **words)
{
    static uint8_t bytes[ROOM];
    const int yes = 1, listener = socket(AF_INET, SOCK_STREAM, 0), target = socket(AF_INET, SOCK_STREAM, 0);
    if (count != 3)
        return 1;
    struct sockaddr_in here = at(words[1]), there = at(words[2]);
    if (bind(listener, (struct sockaddr *)&here, sizeof here) != 0 || listen(listener, 1) != 0)
        return 1;
    int debugger = accept(listener, NULL, NULL);
    if (debugger < 0 || connect(target, (struct sockaddr *)&there, sizeof there) != 0)
        return 1;
    setsockopt(debugger, IPPROTO_TCP, TCP_NODELAY, &yes, sizeof yes);
    setsockopt(target, IPPROTO_TCP, TCP_NODELAY, &yes, sizeof yes);
    struct pollfd ends[2] = {{.fd = debugger, .events = POLLIN}, {.fd = target, .events = POLLIN}};
    const int other[2] = {target, debugger};
    while (ends[0].fd >= 0 || ends[1].fd >= 0) {
        if (poll(ends, 2, -1) < 0)
            return 1;
        for (int side = 0; side < 2; side++) {
            if (ends[side].fd < 0 || ends[side].revents == 0)
                continue;
            ssize_t came = read(ends[side].fd, bytes, ROOM);
            if (came <= 0) {
                ends[side].fd = -1;
                shutdown(other[side], SHUT_WR);
            } else if (!put(other[side], bytes, came)) {
                return 1;
            }
        }
    }
    return 0;
}
