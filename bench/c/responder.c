/* A time-stamp responder over OpenSSL: responder KEY CERTIFICATE DATABASE BODY COMMITS. Answers connections over
 * loopback, one after the other: reads a head and BODY octets, has TS_RESP_create_response answer them, and commits
 * serial number and reply to the SQLite database durably: in one commit behind the signature, or where COMMITS is 2 in
 * one for the number before it, and in one for the reply behind it. Then it writes the answer. Prints the port, which
 * the system picks, and goes on until it is killed. */
#include "loopback.h"
#include "response.h"
#include <sqlite3.h>
#include <stdbool.h>

/* what reserves a serial number, if that has a commit of its own, and what keeps a reply */
struct statements {
    sqlite3_stmt *reserve, *keep;
};

static struct statements database(const char *path, bool reserves)
{
    sqlite3 *opened;
    struct statements made = {.reserve = NULL};
    const char *make = "PRAGMA locking_mode = EXCLUSIVE; PRAGMA journal_mode = WAL; PRAGMA synchronous = FULL;"
                       "CREATE TABLE stamp (serial INTEGER PRIMARY KEY, reply BLOB) STRICT";
    const char *keep = reserves ? "UPDATE stamp SET reply = ?2 WHERE serial = ?1" : "INSERT INTO stamp VALUES (?1, ?2)";
    if (sqlite3_open(path, &opened) || sqlite3_exec(opened, make, NULL, NULL, NULL)
        || sqlite3_prepare_v2(opened, keep, -1, &made.keep, NULL)
        || (reserves
            && sqlite3_prepare_v2(opened, "INSERT INTO stamp VALUES (?1, NULL)", -1, &made.reserve, NULL)))
        exit(2);
    return made;
}

static void commit(sqlite3_stmt *statement, long number)
{
    sqlite3_bind_int64(statement, 1, number);
    if (sqlite3_step(statement) != SQLITE_DONE)
        exit(1);
    sqlite3_reset(statement);
}

static void answer(int connection, TS_RESP_CTX *context, struct statements statements, size_t body)
{
    const char *query = body_of(connection, body);
    if (!query)
        return;
    if (statements.reserve)
        commit(statements.reserve, serial + 1);
    BIO *input = BIO_new_mem_buf(query, (int)body);
    TS_RESP *response = TS_RESP_create_response(context, input);
    unsigned char *reply = NULL;
    int length = i2d_TS_RESP(response, &reply);
    if (length < 200)
        exit(1);
    sqlite3_bind_blob(statements.keep, 2, reply, length, SQLITE_STATIC);
    commit(statements.keep, serial);
    dprintf(connection, "HTTP/1.1 200 OK\r\nContent-Type: application/timestamp-reply\r\nContent-Length: %d\r\n"
                        "Connection: close\r\n\r\n", length);
    if (write(connection, reply, (size_t)length) != length)
        exit(1);
    OPENSSL_free(reply);
    TS_RESP_free(response);
    BIO_free(input);
}

int main(int words, char **word)
{
    if (words != 6)
        return 2;
    TS_RESP_CTX *context = responder(key_at(word[1]), word[2]);
    struct statements statements = database(word[3], atoi(word[5]) == 2);
    size_t body = strtoul(word[4], NULL, 10);
    for (int listener = listening();;) {
        int connection = accepted(listener);
        answer(connection, context, statements, body);
        close(connection);
    }
}
