/* poke: a client for the tests of bay serve. Words: PORT, then in order
 *     s:HEX   send these bytes
 *     r:N     read N bytes and print them as one line of hexadecimal digits
 *     e       read to the end of the line and print "end" if nothing more came
 *     w:MS    wait so many milliseconds
 * It gives up after twenty seconds without an answer. */
#include <arpa/inet.h>
#include <netinet/in.h>
#include <poll.h>
#include <stdint.h>
#include <stdio.h>
#include <stdlib.h>
#include <string.h>
#include <sys/socket.h>
#include <unistd.h>

enum { PATIENCE = 20000 };

static int fail(const char *what)
{
    (void)fprintf(stderr, "poke: %s\n", what);
    return 1;
}

static int dial(const char *port)
{
    struct sockaddr_in to = { .sin_family = AF_INET, .sin_port = htons((uint16_t)strtoul(port, NULL, 10)) };
    to.sin_addr.s_addr = htonl(INADDR_LOOPBACK);
    int line = socket(AF_INET, SOCK_STREAM, 0);
    if (line < 0 || connect(line, (const struct sockaddr *)&to, sizeof to) != 0) {
        return -1;
    }
    return line;
}

static int send_hex(int line, const char *hex)
{
    for (; hex[0] != '\0' && hex[1] != '\0'; hex += 2) {
        char two[3] = { hex[0], hex[1], '\0' };
        uint8_t byte = (uint8_t)strtoul(two, NULL, 16);
        if (send(line, &byte, 1, MSG_NOSIGNAL) != 1) {
            return fail("cannot send");
        }
    }
    return 0;
}

/* One byte, or -1 at the end of the line, or -2 where nothing comes. */
static int next_byte(int line)
{
    struct pollfd file = { .fd = line, .events = POLLIN };
    uint8_t byte = 0;
    if (poll(&file, 1, PATIENCE) <= 0) {
        return -2;
    }
    return recv(line, &byte, 1, 0) == 1 ? (int)byte : -1;
}

static int obey(int line, const char *word)
{
    unsigned long number = strlen(word) > 2 ? strtoul(word + 2, NULL, 10) : 0;
    if (word[0] == 's') {
        return send_hex(line, word + 2);
    }
    if (word[0] == 'w') {
        (void)poll(NULL, 0, (int)number);
        return 0;
    }
    if (word[0] == 'e') {
        return next_byte(line) == -1 ? (puts("end") < 0) : fail("the line has not ended");
    }
    for (unsigned long i = 0; i < number; i++) {
        int byte = next_byte(line);
        if (byte < 0) {
            return fail(byte == -1 ? "the line ended" : "no answer");
        }
        (void)printf("%02X", (unsigned)byte);
    }
    return puts("") < 0 || fflush(stdout) != 0;
}

int main(int count, char **words)
{
    int line = count < 2 ? -1 : dial(words[1]);
    if (line < 0) {
        return fail("cannot reach the port");
    }
    for (int i = 2; i < count; i++) {
        if (obey(line, words[i]) != 0) {
            return 1;
        }
    }
    return close(line) == 0 ? 0 : 1;
}
