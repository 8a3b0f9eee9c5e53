/* LMDB on a file in memory, without syncs: a commit replaces pages, and keeps no record of its
 * reads. */
#include "peer.h"

#include <lmdb.h>
#include <string.h>

static MDB_env *environment;
static MDB_dbi table;

static int64_t value_at(MDB_txn *transaction, unsigned place) {
    MDB_val key = {sizeof place, &place}, data;
    int64_t value;
    REQUIRE(mdb_get(transaction, table, &key, &data) == 0 && data.mv_size == sizeof value);
    memcpy(&value, data.mv_data, sizeof value);
    return value;
}

static void put_at(MDB_txn *transaction, unsigned place, int64_t value) {
    MDB_val key = {sizeof place, &place}, data = {sizeof value, &value};
    REQUIRE(mdb_put(transaction, table, &key, &data, 0) == 0);
}

void peer_open(unsigned threads, const char *folder) {
    MDB_txn *transaction;
    (void)threads;
    REQUIRE(mdb_env_create(&environment) == 0);
    REQUIRE(mdb_env_set_mapsize(environment, 1 << 26) == 0);
    REQUIRE(mdb_env_open(environment, folder, MDB_NOSYNC | MDB_WRITEMAP, 0600) == 0);
    REQUIRE(mdb_txn_begin(environment, NULL, 0, &transaction) == 0);
    REQUIRE(mdb_dbi_open(transaction, NULL, MDB_INTEGERKEY, &table) == 0);
    for (unsigned i = 0; i < PLACES; i++)
        put_at(transaction, i, 0);
    REQUIRE(mdb_txn_commit(transaction) == 0);
}

void peer_step(unsigned thread, const unsigned *places, unsigned reads, unsigned writes,
               const int64_t *more) {
    MDB_txn *transaction;
    int64_t values[PLACES];
    (void)thread;
    REQUIRE(mdb_txn_begin(environment, NULL, 0, &transaction) == 0);
    for (unsigned i = 0; i < reads; i++)
        values[i] = value_at(transaction, places[i]);
    for (unsigned i = 0; i < writes; i++)
        put_at(transaction, places[i], values[i] + more[i]);
    REQUIRE(mdb_txn_commit(transaction) == 0);
}

int64_t peer_sum(unsigned thread, unsigned first, unsigned count) {
    MDB_txn *transaction;
    int64_t sum = 0;
    (void)thread;
    REQUIRE(mdb_txn_begin(environment, NULL, MDB_RDONLY, &transaction) == 0);
    for (unsigned i = first; i < first + count; i++)
        sum += value_at(transaction, i);
    mdb_txn_abort(transaction);
    return sum;
}

void peer_close(void) { mdb_env_close(environment); }
