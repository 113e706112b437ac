/* Firebird's embedded engine, in one process: a register is a row. `firebird FILE BEGIN`: the statement that begins a transaction. */
#include "tmwatch/store.h"
#include <ibase.h>

static isc_db_handle databases[THREADS];
static isc_tr_handle transactions[THREADS];
static const char *begin;

/* Makes a statement, which may return a row: whether it was done. A refusal has a state of class 40. */
static bool ask(unsigned thread, const char *words, XSQLDA *row)
{
    char state[FB_SQLSTATE_SIZE], text[512];
    ISC_STATUS_ARRAY status;
    bool is_done = isc_dsql_exec_immed2(status, &databases[thread], &transactions[thread], 0, words, SQL_DIALECT_V6, NULL, row) == 0;
    fb_sqlstate(state, status);
    if (!is_done && (state[0] != '4' || state[1] != '0') && fb_interpret(text, sizeof text, &(const ISC_STATUS *){status}))
        fail(words, text);
    return is_done;
}

static bool store_begin(unsigned thread)
{
    return ask(thread, begin, NULL);
}

/* Makes a statement that returns a register's value: a store that finds no row has lost it. */
static bool ask_row(unsigned thread, const char *words, uint64_t *value)
{
    ISC_SHORT missing = 0;
    XSQLVAR column = {.sqltype = SQL_INT64 + 1, .sqllen = sizeof *value, .sqldata = (char *)value, .sqlind = &missing};
    XSQLDA row = {.version = SQLDA_VERSION1, .sqln = 1, .sqld = 1, .sqlvar = {column}};
    bool is_done = ask(thread, words, &row);
    if (is_done && missing)
        fail(words, "no row");
    return is_done;
}

static bool store_read(unsigned thread, unsigned reg, uint64_t *value)
{
    char words[100];
    sprintf(words, "SELECT v FROM registers WHERE k = %u", reg);
    return ask_row(thread, words, value);
}

static bool store_write(unsigned thread, unsigned reg, uint64_t value)
{
    char words[100];
    sprintf(words, "UPDATE registers SET v = %" PRIu64 " WHERE k = %u RETURNING v", value, reg);
    return ask_row(thread, words, &value);
}

static bool store_commit(unsigned thread)
{
    return ask(thread, "COMMIT", NULL);
}

static void store_abort(unsigned thread)
{
    ask(thread, "ROLLBACK", NULL);
}

int main(int count, char **words)
{
    ISC_STATUS_ARRAY status;
    begin = words[count - 1];
    for (unsigned i = 0; i < THREADS; i++)
        if (isc_attach_database(status, 0, words[1], &databases[i], 0, NULL) != 0)
            fail(words[1], "no attachment");
    serve_store();
}
