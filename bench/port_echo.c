/* What a connection alone takes: listens at a port of 127.0.0.1 and, on the first connection, reads 19 bytes, a SuspendCount, and writes the 15
 * bytes of an answer under the same id, again and again until the connection is closed. It looks at nothing.
 *
 *     port_echo PORT */
#include <arpa/inet.h>
#include <netinet/in.h>
#include <netinet/tcp.h>
#include <stdint.h>
#include <stdlib.h>
#include <string.h>
#include <sys/socket.h>
#include <unistd.h>

enum { COMMAND = 19, ANSWER = 15 };

int main(int count, char **words)
{
    const int yes = 1, listener = socket(AF_INET, SOCK_STREAM, 0);
    struct sockaddr_in at = {.sin_family = AF_INET, .sin_addr.s_addr = htonl(INADDR_LOOPBACK), .sin_port = htons(count == 2 ? (uint16_t)atoi(words[1]) : 0)};
    if (listener < 0 || bind(listener, (struct sockaddr *)&at, sizeof at) != 0 || listen(listener, 1) != 0)
        return 1;
    int connection = accept(listener, NULL, NULL);
    if (connection < 0)
        return 1;
    setsockopt(connection, IPPROTO_TCP, TCP_NODELAY, &yes, sizeof yes);
    uint8_t command[COMMAND], answer[ANSWER] = {0, 0, 0, ANSWER, 0, 0, 0, 0, 0x80, 0, 0, 0, 0, 0, 1};
    for (;;) {
        for (size_t had = 0; had < COMMAND;) {
            ssize_t came = read(connection, command + had, COMMAND - had);
            if (came <= 0)
                return came < 0;
            had += (size_t)came;
        }
        memcpy(answer + 4, command + 4, 4);
        if (write(connection, answer, ANSWER) != ANSWER)
            return 1;
    }
}
