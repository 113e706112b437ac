/* LMDB: a register is a key of one database, in the folder that is named. A transaction has to say first whether it writes: it begins as a reader,
   is refused at its first write, and its next attempt begins as a writer. */
#include "tmwatch/store.h"
#include <lmdb.h>

static MDB_env *environment;
static MDB_dbi database;
static MDB_txn *transactions[THREADS];
static bool writes[THREADS];

static void must(int code, const char *what)
{
    if (code != MDB_SUCCESS)
        fail(what, mdb_strerror(code));
}

static bool store_begin(unsigned thread)
{
    must(mdb_txn_begin(environment, NULL, writes[thread] ? 0 : MDB_RDONLY, &transactions[thread]), "begin");
    return true;
}

static bool store_read(unsigned thread, unsigned reg, uint64_t *value)
{
    MDB_val key = {sizeof reg, &reg}, data;
    *value = mdb_get(transactions[thread], database, &key, &data) == MDB_SUCCESS ? *(uint64_t *)data.mv_data : 0;
    return true;
}

static bool store_write(unsigned thread, unsigned reg, uint64_t value)
{
    MDB_val key = {sizeof reg, &reg}, data = {sizeof value, &value};
    bool is_writer = writes[thread];
    writes[thread] = true;
    if (is_writer)
        must(mdb_put(transactions[thread], database, &key, &data, 0), "put");
    return is_writer;
}

static bool store_commit(unsigned thread)
{
    must(mdb_txn_commit(transactions[thread]), "commit");
    writes[thread] = false;
    return true;
}

static void store_abort(unsigned thread)
{
    mdb_txn_abort(transactions[thread]);
}

int main(int count, char **words)
{
    must(count != 2 ? MDB_INVALID : mdb_env_create(&environment), "environment");
    must(mdb_env_open(environment, words[1], MDB_NOSYNC, 0600), words[1]);
    store_begin(0);
    must(mdb_dbi_open(transactions[0], NULL, 0, &database), "open");
    store_commit(0);
    serve_store();
}
