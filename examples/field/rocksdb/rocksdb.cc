/* RocksDB, in one process: a register is a key. A transaction reads by GetForUpdate (`update`), or at the snapshot that was taken when it began. */
#include "tmwatch/store.h"
#include <rocksdb/utilities/optimistic_transaction_db.h>
#include <rocksdb/utilities/transaction_db.h>

static rocksdb::TransactionDB *locking;
static rocksdb::OptimisticTransactionDB *optimistic;
static rocksdb::TransactionOptions how = {.lock_timeout = 0};
static rocksdb::Transaction *transactions[THREADS];

/* Whether it was done. What another transaction has locked or changed is a refusal. */
static bool is_done(const rocksdb::Status &status)
{
    if (!status.ok() && !status.IsNotFound() && !status.IsBusy() && !status.IsTimedOut() && !status.IsTryAgain())
        fail("RocksDB", status.ToString().c_str());
    return status.ok() || status.IsNotFound();
}

static bool store_begin(unsigned thread)
{
    auto &it = transactions[thread];
    it = locking ? locking->BeginTransaction({}, how, it) : optimistic->BeginTransaction({}, {how.set_snapshot}, it);
    return true;
}

static bool store_read(unsigned thread, unsigned reg, uint64_t *value)
{
    auto &it = *transactions[thread];
    std::string key = std::to_string(reg), found = "0";
    rocksdb::ReadOptions options;
    options.snapshot = it.GetSnapshot();
    auto status = how.set_snapshot ? it.Get(options, key, &found) : it.GetForUpdate(options, key, &found);
    *value = std::stoull(found);
    return is_done(status);
}

static bool store_write(unsigned thread, unsigned reg, uint64_t value)
{
    return is_done(transactions[thread]->Put(std::to_string(reg), std::to_string(value)));
}

static bool store_commit(unsigned thread)
{
    return is_done(transactions[thread]->Commit());
}

static void store_abort(unsigned thread)
{
    is_done(transactions[thread]->Rollback());
}

int main(int, char **words)
{
    rocksdb::Options options;
    options.create_if_missing = true;
    how.set_snapshot = words[3] == std::string("snapshot");
    is_done(words[2] == std::string("locking") ? rocksdb::TransactionDB::Open(options, {}, words[1], &locking)
                                               : rocksdb::OptimisticTransactionDB::Open(options, words[1], &optimistic));
    serve_store();
}
