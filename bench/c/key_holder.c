/* Times signatures of a text of 137 octets with SHA-256: key_holder KEY PORT PATH TEXT COUNT. Prints the nanoseconds
 * that one takes by EVP_DigestSign in this process, with the key of the PEM file KEY; by a key holder that listens on
 * the PORT of the loopback interface, over one session; by one at the Unix socket PATH; and by that one where 64 texts
 * are sent before their answers are read. TEXT is the file of what it signs; all do it COUNT times, in turns of a
 * hundredth of that. */
#include <arpa/inet.h>
#include <netinet/tcp.h>
#include <openssl/evp.h>
#include <openssl/pem.h>
#include <stdint.h>
#include <stdio.h>
#include <stdlib.h>
#include <string.h>
#include <sys/un.h>
#include <time.h>
#include <unistd.h>

enum { TEXT_OCTETS = 137, FRAME_OCTETS = 4 + TEXT_OCTETS, MOST_OCTETS = 4096, TURNS = 100, GROUP = 64, WAYS = 4 };

static double nanoseconds(void)
{
    struct timespec now;
    clock_gettime(CLOCK_MONOTONIC, &now);
    return 1e9 * (double)now.tv_sec + (double)now.tv_nsec;
}

static EVP_PKEY *read_key(const char *path)
{
    FILE *file = fopen(path, "r");
    EVP_PKEY *key = file ? PEM_read_PrivateKey(file, NULL, NULL, NULL) : NULL;
    if (!key)
        exit(2);
    fclose(file);
    return key;
}

static void read_text(const char *path, uint8_t text[TEXT_OCTETS])
{
    FILE *file = fopen(path, "rb");
    if (!file || fread(text, 1, TEXT_OCTETS, file) != TEXT_OCTETS)
        exit(2);
    fclose(file);
}

static int connect_to(const char *port)
{
    struct sockaddr_in address = {.sin_family = AF_INET, .sin_addr.s_addr = htonl(INADDR_LOOPBACK)};
    address.sin_port = htons((uint16_t)atoi(port));
    int connection = socket(AF_INET, SOCK_STREAM, 0);
    if (connect(connection, (struct sockaddr *)&address, sizeof address))
        exit(2);
    setsockopt(connection, IPPROTO_TCP, TCP_NODELAY, &(int){1}, sizeof(int));
    return connection;
}

static int connect_to_file(const char *path)
{
    struct sockaddr_un address = {.sun_family = AF_UNIX};
    strncpy(address.sun_path, path, sizeof address.sun_path - 1);
    int connection = socket(AF_UNIX, SOCK_STREAM, 0);
    if (connect(connection, (struct sockaddr *)&address, sizeof address))
        exit(2);
    return connection;
}

static void sign(EVP_PKEY *key, const uint8_t *text)
{
    static uint8_t signature[MOST_OCTETS];
    size_t length = sizeof signature;
    EVP_MD_CTX *context = EVP_MD_CTX_new();
    if (EVP_DigestSignInit(context, NULL, EVP_sha256(), NULL, key) != 1
        || EVP_DigestSign(context, signature, &length, text, TEXT_OCTETS) != 1)
        exit(1);
    EVP_MD_CTX_free(context);
}

static void read_octets(int connection, uint8_t *octets, size_t count)
{
    for (size_t taken = 0; taken < count;) {
        ssize_t more = read(connection, octets + taken, count - taken);
        if (more <= 0)
            exit(1);
        taken += (size_t)more;
    }
}

static void ask(int connection, const uint8_t *frame, int count)
{
    static uint8_t frames[GROUP * FRAME_OCTETS], answer[MOST_OCTETS];
    size_t length = (size_t)count * FRAME_OCTETS;
    for (int number = 0; number < count; number++)
        memcpy(frames + number * FRAME_OCTETS, frame, FRAME_OCTETS);
    if (write(connection, frames, length) != (ssize_t)length)
        exit(1);
    for (int number = 0; number < count; number++) {
        uint8_t head[4];
        read_octets(connection, head, sizeof head);
        read_octets(connection, answer, (size_t)head[2] << 8 | head[3]);
    }
}

int main(int words, char **word)
{
    if (words != 6)
        return 2;
    EVP_PKEY *key = read_key(word[1]);
    uint8_t frame[FRAME_OCTETS] = {0, 0, 0, TEXT_OCTETS};
    read_text(word[4], frame + 4);
    int by_tcp = connect_to(word[2]), by_file = connect_to_file(word[3]), in_turn = atoi(word[5]) / TURNS;
    double spent[WAYS] = {0};
    int done[WAYS] = {0};
    for (int turn = 0; turn < TURNS * WAYS; turn++) {
        int way = turn % WAYS, at_once = way == 3 ? GROUP : 1;
        double begun = nanoseconds();
        for (int left = in_turn; left > 0; left -= at_once, done[way] += at_once)
            if (way == 0)
                sign(key, frame + 4);
            else
                ask(way == 1 ? by_tcp : by_file, frame, at_once);
        spent[way] += nanoseconds() - begun;
    }
    for (int way = 0; way < WAYS; way++)
        printf("%.0f%c", spent[way] / done[way], way == WAYS - 1 ? '\n' : ' ');
}
