/* SQLite on a file in memory, with a write-ahead log and without syncs; each thread has a
 * connection and prepared statements. */
#include "peer.h"

#include <sqlite3.h>

enum { BEGIN_READ, BEGIN_WRITE, GET, PUT, SUM, COMMIT, STATEMENTS, PATIENCE = 60000 };

static const char *const texts[STATEMENTS] = {
    "BEGIN",
    "BEGIN IMMEDIATE",
    "SELECT value FROM numbers WHERE place = ?1",
    "UPDATE numbers SET value = ?2 WHERE place = ?1",
    "SELECT sum(value) FROM numbers WHERE place >= ?1 AND place < ?2",
    "COMMIT",
};

static struct connection {
    sqlite3 *base;
    sqlite3_stmt *statements[STATEMENTS];
} connections[MOST_THREADS];
static unsigned open_count;

static void execute(sqlite3 *base, const char *text) {
    REQUIRE(sqlite3_exec(base, text, NULL, NULL, NULL) == SQLITE_OK);
}

/* Runs a prepared statement with two numbers; returns the first column of its row. */
static int64_t ask(unsigned thread, unsigned which, int64_t first, int64_t second) {
    sqlite3_stmt *statement = connections[thread].statements[which];
    int64_t answer = 0;
    int bound = sqlite3_bind_parameter_count(statement);
    if (bound > 0)
        REQUIRE(sqlite3_bind_int64(statement, 1, first) == SQLITE_OK);
    if (bound > 1)
        REQUIRE(sqlite3_bind_int64(statement, 2, second) == SQLITE_OK);
    int code = sqlite3_step(statement);
    if (code == SQLITE_ROW)
        answer = sqlite3_column_int64(statement, 0);
    REQUIRE(code == SQLITE_ROW || code == SQLITE_DONE);
    sqlite3_reset(statement);
    return answer;
}

static void connect_to(struct connection *it, const char *path) {
    REQUIRE(sqlite3_open(path, &it->base) == SQLITE_OK);
    REQUIRE(sqlite3_busy_timeout(it->base, PATIENCE) == SQLITE_OK);
    execute(it->base, "PRAGMA journal_mode = WAL; PRAGMA synchronous = OFF");
}

void peer_open(unsigned threads, const char *folder) {
    char path[4096];
    snprintf(path, sizeof path, "%s/numbers.db", folder);
    open_count = threads;
    for (unsigned i = 0; i < threads; i++) {
        connect_to(&connections[i], path);
        if (i == 0)
            execute(connections[0].base,
                    "CREATE TABLE numbers (place INTEGER PRIMARY KEY, value INTEGER);"
                    "WITH RECURSIVE p(n) AS (SELECT 0 UNION ALL SELECT n + 1 FROM p WHERE n < 255)"
                    "INSERT INTO numbers SELECT n, 0 FROM p");
        for (unsigned k = 0; k < STATEMENTS; k++)
            REQUIRE(sqlite3_prepare_v2(connections[i].base, texts[k], -1,
                                       &connections[i].statements[k], NULL) == SQLITE_OK);
    }
}

void peer_step(unsigned thread, const unsigned *places, unsigned reads, unsigned writes,
               const int64_t *more) {
    int64_t values[PLACES];
    ask(thread, BEGIN_WRITE, 0, 0);
    for (unsigned i = 0; i < reads; i++)
        values[i] = ask(thread, GET, places[i], 0);
    for (unsigned i = 0; i < writes; i++)
        ask(thread, PUT, places[i], values[i] + more[i]);
    ask(thread, COMMIT, 0, 0);
}

int64_t peer_sum(unsigned thread, unsigned first, unsigned count) {
    ask(thread, BEGIN_READ, 0, 0);
    int64_t sum = ask(thread, SUM, first, first + count);
    ask(thread, COMMIT, 0, 0);
    return sum;
}

void peer_close(void) {
    for (unsigned i = 0; i < open_count; i++) {
        for (unsigned k = 0; k < STATEMENTS; k++)
            sqlite3_finalize(connections[i].statements[k]);
        sqlite3_close(connections[i].base);
    }
}
