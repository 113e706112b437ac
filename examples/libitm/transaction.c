/* A transaction of a round, compiled with -fgnu-tm. What reads and writes the memory are the two lines that name words[]. */
#include "attempts.h"

void run_transaction(struct worker *worker)
{
    start(worker);
    __transaction_atomic
    {
        if (!begin_attempt(worker))
            __transaction_cancel;
        for (int reg; (reg = ask_read(worker)) >= 0;) {
            uint64_t value = words[reg].value;
            if (answer_read(worker, value)) {
                words[reg].value = ask_write(worker);
                answer_write(worker);
            }
        }
        if (ask_end(worker))
            __transaction_cancel;
    }
    answer_end(worker);
}
