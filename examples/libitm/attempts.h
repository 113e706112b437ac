/*
What a transaction tells the recorder, and asks of it. None of these is itself transactional: what they do is done at once, and stays done
where the attempt is rolled back.
*/
#ifndef ATTEMPTS_H
#define ATTEMPTS_H

#include <stdbool.h>
#include <stdint.h>

struct worker;

/* Words far enough apart that the memory doesn't take two for one. */
struct word {
    _Alignas(64) uint64_t value;
};

extern struct word words[];

/* Before the block, so before the memory is asked to begin. */
void start(struct worker *worker);
/* The first thing in the block, in each attempt: false where no further attempt is to be recorded. */
__attribute__((transaction_pure)) bool begin_attempt(struct worker *worker);
/* The register that is read next, or -1 behind the last. */
__attribute__((transaction_pure)) int ask_read(struct worker *worker);
/* Whether the register is to be written too. */
__attribute__((transaction_pure)) bool answer_read(struct worker *worker, uint64_t value);
/* The value to be written. */
__attribute__((transaction_pure)) uint64_t ask_write(struct worker *worker);
__attribute__((transaction_pure)) void answer_write(struct worker *worker);
/* The last thing in the block: whether the transaction asks to abort, and not to commit. */
__attribute__((transaction_pure)) bool ask_end(struct worker *worker);
/* Behind the block. */
void answer_end(struct worker *worker);
/* The transaction's attempts, until one commits or no further one is to be recorded. */
void run_transaction(struct worker *worker);

#endif
