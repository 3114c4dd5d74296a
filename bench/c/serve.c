/* Answers connections over loopback, one after the other: serve ANSWER BODY. Reads a head and BODY octets,
 * writes the octets of the file ANSWER, whatever was asked, and closes. Prints the port, which the system picks, and
 * goes on until it is killed. */
#include "loopback.h"

static void answer(int connection, size_t body, const char *octets, size_t length)
{
    size_t sent = 0;
    if (!body_of(connection, body))
        return;
    while (sent < length) {
        ssize_t taken = write(connection, octets + sent, length - sent);
        if (taken <= 0)
            return;
        sent += (size_t)taken;
    }
}

int main(int words, char **word)
{
    static char octets[MOST_OCTETS];
    FILE *file = words == 3 ? fopen(word[1], "rb") : NULL;
    if (!file)
        return 2;
    size_t length = fread(octets, 1, sizeof octets, file), body = strtoul(word[2], NULL, 10);
    for (int listener = listening();;) {
        int connection = accepted(listener);
        answer(connection, body, octets, length);
        close(connection);
    }
}
