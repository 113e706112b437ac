/*
The little memory under GCC's interface of transactional memory, to be linked in the place of libitm, on x86-64. FAULT is the part that is
left out of it: NONE, READS, COMMIT or PLACE. It has the six functions of the interface that transaction.c calls for.
*/
#include "tmwatch/memory.h"
#include <setjmp.h>

/* What a begun transaction's return tells its block: run once more, or go on behind it. */
enum { RUN_AGAIN = 0x09, GO_ON_BEHIND = 0x18 };

/* Where the thread's transaction begins. */
_Thread_local jmp_buf beginning;
static _Thread_local struct tx tx;
static _Thread_local bool has_begun;
static _Thread_local void (*undo)(void *);
static _Thread_local void *undo_argument;

__attribute__((constructor)) static void choose_fault(void)
{
    fault = FAULT;
}

/* Keeps its caller's place, to which roll_back returns once more, by _setjmp in its own stead. The first return is 0: run the block. */
__attribute__((naked, returns_twice)) uint32_t _ITM_beginTransaction(__attribute__((unused)) uint32_t properties, ...)
{
    __asm__("movq %fs:0, %rdi\n\taddq $beginning@tpoff, %rdi\n\tjmp _setjmp@PLT");
}

void _ITM_addUserUndoAction(void (*function)(void *), void *argument)
{
    undo = function;
    undo_argument = argument;
}

__attribute__((noreturn)) static void roll_back(int told)
{
    void (*function)(void *) = undo;
    if (has_begun)
        memory_undo(&tx);
    has_begun = false;
    undo = NULL;
    if (function)
        function(undo_argument);
    longjmp(beginning, told);
}

/* The transaction begins with its first access. */
static struct tx *running(void)
{
    if (!has_begun)
        memory_begin(&tx);
    has_begun = true;
    return &tx;
}

uint64_t _ITM_RU8(const uint64_t *word)
{
    uint64_t value;
    if (!memory_read(running(), (_Atomic uint64_t *)word, &value))
        roll_back(RUN_AGAIN);
    return value;
}

void _ITM_WU8(uint64_t *word, uint64_t value)
{
    if (!memory_write(running(), (_Atomic uint64_t *)word, value))
        roll_back(RUN_AGAIN);
}

void _ITM_commitTransaction(void)
{
    if (has_begun && !memory_commit(&tx))
        roll_back(RUN_AGAIN);
    has_begun = false;
    undo = NULL;
}

__attribute__((noreturn)) void _ITM_abortTransaction(__attribute__((unused)) uint32_t reason)
{
    roll_back(GO_ON_BEHIND);
}
