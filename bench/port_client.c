/* A debugger on a connection to a port of 127.0.0.1 that asks the suspend count of thread 1, and little else.
 *
 *     port_client PORT target|echo
 *
 * A line `COMMANDS AT_ONCE` of its input has it ask so many, of which so many at most wait for their answers: for as many answers as a read
 * gave, as many commands follow in one write. It looks at each answer, and prints the seconds of a line. At the input's end it has the
 * machine exit, and reads what is sent until the connection is closed. From an echo it wants the answers alone: no handshake, no end. A
 * line may take a minute and a half, or the process is ended by its alarm. */
#include <arpa/inet.h>
#include <errno.h>
#include <netinet/in.h>
#include <netinet/tcp.h>
#include <stdint.h>
#include <stdio.h>
#include <stdlib.h>
#include <string.h>
#include <sys/socket.h>
#include <time.h>
#include <unistd.h>

enum { COMMAND = 19, ANSWER = 15, MOST_AT_ONCE = 1024, PATIENCE = 90 };

static int connection;

static void fail(const char *what)
{
    fprintf(stderr, "port_client: %s\n", what);
    exit(1);
}

static void put(const uint8_t *bytes, size_t count)
{
    while (count > 0) {
        ssize_t written = write(connection, bytes, count);
        if (written <= 0)
            fail("a write failed");
        bytes += written;
        count -= (size_t)written;
    }
}

static size_t get_some(uint8_t *bytes, size_t room)
{
    ssize_t came = read(connection, bytes, room);
    if (came < 0)
        fail("a read failed");
    return (size_t)came;
}

static void get_all(uint8_t *bytes, size_t count)
{
    while (count > 0) {
        size_t came = get_some(bytes, count);
        if (came == 0)
            fail("the connection was closed");
        bytes += came;
        count -= came;
    }
}

static void put_number(uint8_t *bytes, uint32_t number)
{
    number = htonl(number);
    memcpy(bytes, &number, 4);
}

static uint32_t number_at(const uint8_t *bytes)
{
    uint32_t number;
    memcpy(&number, bytes, 4);
    return ntohl(number);
}

/* The handshake and VirtualMachine.Suspend in one write, so that no thread of the machine runs between them; and what comes of that. */
static void begin(void)
{
    static const uint8_t front[25] = "JDWP-Handshake\0\0\0\x0b\0\0\0\1\0\1\x08";
    uint8_t back[65536];
    put(front, sizeof front);
    get_all(back, 14);
    if (memcmp(back, front, 14) != 0)
        fail("not the handshake");
    do {
        get_all(back, 11);
        if (number_at(back) < 11 || number_at(back) > sizeof back)
            fail("not a packet's length");
        get_all(back + 11, number_at(back) - 11);
    } while (back[8] != 0x80);
    if (number_at(back + 4) != 1 || back[9] != 0 || back[10] != 0)
        fail("the machine is not suspended");
}

/* The next commands, under the ids from this one on. */
static void ask(uint32_t id, size_t count)
{
    static uint8_t bytes[COMMAND * MOST_AT_ONCE];
    for (size_t i = 0; i < count; i++) {
        uint8_t *command = bytes + COMMAND * i;
        memcpy(command, "\0\0\0\x13\0\0\0\0\0\x0b\x0c\0\0\0\0\0\0\0\1", COMMAND);
        put_number(command + 4, id + (uint32_t)i);
    }
    put(bytes, COMMAND * count);
}

static void see(const uint8_t *answer, uint32_t id)
{
    static const uint8_t same[7] = {0x80, 0, 0, 0, 0, 0, 1};
    if (number_at(answer) != ANSWER || number_at(answer + 4) != id || memcmp(answer + 8, same, 7) != 0)
        fail("not the answer");
}

static void run(uint64_t commands, uint64_t at_once)
{
    static uint32_t last_id = 1;
    uint8_t came[ANSWER * MOST_AT_ONCE];
    uint64_t asked = 0, answered = 0;
    size_t kept = 0;
    while (answered < commands) {
        uint64_t more = at_once - (asked - answered);
        if (more > commands - asked)
            more = commands - asked;
        if (more > 0) {
            ask(last_id + 1 + (uint32_t)asked, more);
            asked += more;
        }
        size_t got = get_some(came + kept, sizeof came - kept);
        if (got == 0)
            fail("the connection was closed");
        kept += got;
        size_t whole = kept / ANSWER;
        for (size_t i = 0; i < whole; i++)
            see(came + ANSWER * i, last_id + 1 + (uint32_t)answered++);
        kept -= ANSWER * whole;
        memmove(came, came + ANSWER * whole, kept);
    }
    last_id += (uint32_t)commands;
}

/* VirtualMachine.Exit. */
static void end(void)
{
    uint8_t came[4096];
    put((const uint8_t *)"\0\0\0\x0f\0\0\0\0\0\1\x0a\0\0\0\0", 15);
    while (get_some(came, sizeof came) > 0) {
    }
}

static double now(void)
{
    struct timespec at;
    clock_gettime(CLOCK_MONOTONIC, &at);
    return (double)at.tv_sec + (double)at.tv_nsec / 1e9;
}

int main(int count, char **words)
{
    if (count != 3)
        fail("PORT target|echo");
    const int yes = 1, serves = strcmp(words[2], "target") == 0;
    struct sockaddr_in at = {.sin_family = AF_INET, .sin_addr.s_addr = htonl(INADDR_LOOPBACK), .sin_port = htons((uint16_t)atoi(words[1]))};
    alarm(PATIENCE);
    connection = socket(AF_INET, SOCK_STREAM, 0);
    if (connection < 0 || connect(connection, (struct sockaddr *)&at, sizeof at) != 0)
        fail(strerror(errno));
    setsockopt(connection, IPPROTO_TCP, TCP_NODELAY, &yes, sizeof yes);
    if (serves)
        begin();
    unsigned long commands, at_once;
    while (scanf("%lu %lu", &commands, &at_once) == 2) {
        if (at_once < 1 || at_once > MOST_AT_ONCE)
            fail("so many at once are not asked");
        alarm(PATIENCE);
        double start = now();
        run(commands, at_once);
        printf("%.6f\n", now() - start);
        fflush(stdout);
    }
    if (serves)
        end();
    return 0;
}
