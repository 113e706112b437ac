/* Berkeley DB, in one process: a register is a hash database of one record, so that its page is locked alone. */
#include "tmwatch/store.h"
#include <db.h>
#include <errno.h>

static DB_ENV *environment;
static DB *databases[REGISTERS];
static DB_TXN *transactions[THREADS];

/* Whether it was done. That a lock could not be had, for a deadlock, is a refusal. */
static bool is_done(int code, const char *what)
{
    if (code != 0 && code != DB_LOCK_DEADLOCK && code != DB_LOCK_NOTGRANTED)
        fail(what, db_strerror(code));
    return code == 0;
}

static bool store_begin(unsigned thread)
{
    return is_done(environment->txn_begin(environment, NULL, &transactions[thread], 0), "begin");
}

static bool store_read(unsigned thread, unsigned reg, uint64_t *value)
{
    DBT key = {.data = &reg, .size = sizeof reg}, data = {.data = value, .ulen = sizeof *value, .flags = DB_DBT_USERMEM};
    return is_done(databases[reg]->get(databases[reg], transactions[thread], &key, &data, 0), "get");
}

static bool store_write(unsigned thread, unsigned reg, uint64_t value)
{
    DBT key = {.data = &reg, .size = sizeof reg}, data = {.data = &value, .size = sizeof value};
    return is_done(databases[reg]->put(databases[reg], transactions[thread], &key, &data, 0), "put");
}

static bool store_commit(unsigned thread)
{
    DB_TXN *transaction = transactions[thread];
    transactions[thread] = NULL; /* (a commit that is refused has ended it, too) */
    return is_done(transaction->commit(transaction, 0), "commit");
}

static void store_abort(unsigned thread)
{
    if (transactions[thread])
        is_done(transactions[thread]->abort(transactions[thread]), "abort");
}

int main(int count, char **words)
{
    uint32_t parts = DB_INIT_TXN | DB_INIT_LOCK | DB_INIT_LOG | DB_INIT_MPOOL | DB_THREAD | DB_PRIVATE;
    is_done(count == 2 ? db_env_create(&environment, 0) : EINVAL, "environment");
    is_done(environment->open(environment, words[1], DB_CREATE | parts, 0600), words[1]);
    for (char name[] = "0"; name[0] - '0' < REGISTERS; name[0]++) {
        unsigned reg = (unsigned)(name[0] - '0');
        is_done(db_create(&databases[reg], environment, 0), name);
        is_done(databases[reg]->open(databases[reg], NULL, name, NULL, DB_HASH, DB_CREATE | DB_THREAD | DB_AUTO_COMMIT, 0600), name);
        store_write(0, reg, 0);
    }
    serve_store();
}
