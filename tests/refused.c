/*
Makes calls of a program fail, for tests/refused.sh, which loads it with the program (LD_PRELOAD): an allocation, a read of standard input,
a write to standard output, or the start of a thread. A program that Rattle builds allocates all of its memory with malloc and realloc of
the C library, and reads and writes with read and write.

    REFUSE   what fails: growth, growths, read, write, interrupted_read, interrupted_write or thread. With growths, all allocations fail
             from number AT on; with the others, one call does
    AT       the number of the call, from 1
    AFTER    if set, the number of bytes that must be read before a call is counted
    LEAST    if set, the least size in bytes of an allocation that is counted
    BYTES    if set, the greatest number of bytes that a read or a write moves
    TOLD     a file. It gets a line "refused" for the first call that fails, a line "read" for each read after it, unless that call was
             only interrupted, and "start N" when a thread is to be started after N allocations, the last of which was for the thread
*/
#define _GNU_SOURCE
#include <dlfcn.h>
#include <errno.h>
#include <fcntl.h>
#include <pthread.h>
#include <stdatomic.h>
#include <stdint.h>
#include <stdio.h>
#include <stdlib.h>
#include <string.h>
#include <sys/syscall.h>
#include <unistd.h>

/* The calls that are counted, each kind for itself. */
enum kind { NONE, GROWTH, READ, WRITE, THREAD, KINDS };

/* What the words of REFUSE mean: the kind, the number of the fault, and whether all later calls are refused too. */
static const struct order {
    const char *word;
    enum kind kind;
    int fault;
    int lasts;
} orders[] = {
    {"", NONE, 0, 0},
    {"growth", GROWTH, ENOMEM, 0},
    {"growths", GROWTH, ENOMEM, 1},
    {"read", READ, EIO, 0},
    {"write", WRITE, EIO, 0},
    {"interrupted_read", READ, EINTR, 0},
    {"interrupted_write", WRITE, EINTR, 0},
    {"thread", THREAD, EAGAIN, 0},
};

typedef int starts(pthread_t *, const pthread_attr_t *, void *(*)(void *), void *);

void *__libc_malloc(size_t size);
void *__libc_realloc(void *block, size_t size);

static const struct order *order = &orders[0];
static unsigned long at, after;
static size_t least, most = SIZE_MAX;
static const char *result;
static starts *start_thread;
static atomic_ulong counts[KINDS], bytes_read;
/* Whether a call was refused. */
static atomic_int was_refused;

/* The number that the environment has under this name, or else another. */
static unsigned long number_of(const char *name, unsigned long otherwise)
{
    const char *number = getenv(name);
    return number ? strtoul(number, NULL, 10) : otherwise;
}

__attribute__((constructor)) static void read_environment(void)
{
    const char *word = getenv("REFUSE");
    for (size_t i = 0; word && i < sizeof orders / sizeof orders[0]; i++)
        if (strcmp(word, orders[i].word) == 0)
            order = &orders[i];
    at = number_of("AT", 0);
    after = number_of("AFTER", 0);
    least = number_of("LEAST", 0);
    most = number_of("BYTES", SIZE_MAX);
    result = getenv("TOLD");
    start_thread = (starts *)dlsym(RTLD_NEXT, "pthread_create");
    for (size_t i = 0; i < KINDS; i++)
        atomic_store(&counts[i], 0);
    atomic_store(&bytes_read, 0);
}

static void tell(const char *word, unsigned long number)
{
    char line[64];
    int file = result ? open(result, O_WRONLY | O_CREAT | O_APPEND, 0600) : -1;
    int length = number ? snprintf(line, sizeof line, "%s %lu\n", word, number) : snprintf(line, sizeof line, "%s\n", word);
    if (file >= 0) {
        syscall(SYS_write, file, line, (size_t)length);
        close(file);
    }
}

/* Counts a call of this kind, and tells whether it is refused. */
static int is_refused(enum kind kind)
{
    if (atomic_load(&bytes_read) < after)
        return 0;
    unsigned long count = atomic_fetch_add(&counts[kind], 1) + 1;
    if (kind != order->kind || (order->lasts ? count < at : count != at))
        return 0;
    if (!atomic_exchange(&was_refused, 1))
        tell("refused", 0);
    errno = order->fault;
    return 1;
}

void *malloc(size_t size)
{
    return size >= least && is_refused(GROWTH) ? NULL : __libc_malloc(size);
}

void *realloc(void *block, size_t size)
{
    return size >= least && is_refused(GROWTH) ? NULL : __libc_realloc(block, size);
}

ssize_t read(int file, void *bytes, size_t size)
{
    if (atomic_load(&was_refused) && order->fault != EINTR)
        tell("read", 0);
    if (file == STDIN_FILENO && is_refused(READ))
        return -1;
    ssize_t count = syscall(SYS_read, file, bytes, size < most ? size : most);
    if (file == STDIN_FILENO && count > 0)
        atomic_fetch_add(&bytes_read, (unsigned long)count);
    return count;
}

ssize_t write(int file, const void *bytes, size_t size)
{
    return file == STDOUT_FILENO && is_refused(WRITE) ? -1 : syscall(SYS_write, file, bytes, size < most ? size : most);
}

int pthread_create(pthread_t *thread, const pthread_attr_t *how, void *(*run)(void *), void *given)
{
    if (is_refused(THREAD))
        return order->fault;
    tell("start", atomic_load(&counts[GROWTH]));
    return start_thread(thread, how, run, given);
}
