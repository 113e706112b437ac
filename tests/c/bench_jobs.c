/*
The little memory of examples/c on the bench, with a fault of the environment's FAULT that comes by chance, as what was drawn has it: once in ODDS
transactions. By WRONG a read finds what nobody wrote, by ONCE too, but in the first process of PROCESSES alone; by CRASH the process dies; by STUCK
a call never returns; by LEAVES it ends the process. By SLOW the first call of a process takes most of a second.
JOB: only in the job of this number, if the program has tmwatch_bench_job (-DHOOK). PROCESSES: a file to which each process that runs the memory
adds its number. BESIDE: before the run THREAD starts a thread, MAP maps bytes that are shared, and WRITES such that can't be read; NAMED maps
a file whose name looks so; FILE and SOCKET open what is shared. -DDIRECT calls
tmwatch_bench for two seconds instead of the program by words.
*/
#define _GNU_SOURCE
#include "tmwatch_bench.h"
#undef TMWATCH_BENCH_MAIN
#define TMWATCH_BENCH_MAIN(memory)
#include "../../examples/c/norec.c"
#include <fcntl.h>
#include <pthread.h>
#include <signal.h>
#include <stdlib.h>
#include <string.h>
#include <sys/mman.h>
#include <sys/socket.h>
#include <unistd.h>

static const char *told_fault;
static unsigned long odds, transactions;
static bool is_here = true, is_first;
static _Thread_local bool is_wrong;

static void note_process(void)
{
    char line[32];
    const char *name = getenv("PROCESSES");
    int length = snprintf(line, sizeof line, "%d\n", (int)getpid()), file = name ? open(name, O_WRONLY | O_APPEND | O_CREAT, 0666) : -1;
    is_first = lseek(file, 0, SEEK_END) == 0;
    if (file >= 0 && write(file, line, (size_t)length) != length)
        abort();
    close(file);
}

#ifdef HOOK
bool tmwatch_bench_job(unsigned job, const tmwatch_plan *plan)
{
    const char *name = getenv("JOB");
    is_here = !name || (unsigned)atoi(name) == job;
    return plan->seed > 0;
}
#endif

/* A number that what was drawn for the transactions so far decides. (By steps, one thread runs at a time.) */
static bool is_due(void)
{
    static unsigned long mixed;
    mixed = (mixed ^ (tmwatch_thread() + words[0] + 1)) * 0xD1342543DE82EF95;
    return ++transactions > 0 && (mixed >> 20) % odds == 0 && is_here;
}

static bool begin(void *unused, void *tx)
{
    if (transactions == 0)
        note_process();
    if (transactions == 0 && strcmp(told_fault, "SLOW") == 0)
        usleep(800000);
    bool is_time = is_due();
    is_wrong = is_time && (strcmp(told_fault, "WRONG") == 0 || (strcmp(told_fault, "ONCE") == 0 && is_first));
    if (is_time && strcmp(told_fault, "CRASH") == 0)
        raise(SIGSEGV);
    if (is_time && strcmp(told_fault, "LEAVES") == 0)
        _exit(7);
    while (is_time && strcmp(told_fault, "STUCK") == 0)
        TMWATCH_PAUSE();
    return norec_begin(unused, tx);
}

static bool wrong_read(void *unused, void *tx, unsigned reg, uint64_t *value)
{
    bool is_done = norec_read(unused, tx, reg, value);
    *value ^= is_done && is_wrong ? UINT64_C(0x5555555555) : 0;
    return is_done;
}

static void *sleep_long(void *unused)
{
    for (;;)
        pause();
    return unused;
}

static bool map(int protection, int flags, int file)
{
    return mmap(NULL, 4096, protection, flags, file, 0) != MAP_FAILED;
}

static bool map_named(void)
{
    char name[1024];
    snprintf(name, sizeof name, "%s rw-s", getenv("PROCESSES"));
    int file = open(name, O_RDONLY | O_CREAT, 0666);
    bool is_mapped = map(PROT_READ, MAP_PRIVATE, file);
    return close(file) == 0 && is_mapped;
}

static void begin_beside(const char *beside)
{
    pthread_t thread;
    bool is_begun = true;
    if (strcmp(beside, "THREAD") == 0)
        is_begun = pthread_create(&thread, NULL, sleep_long, NULL) == 0;
    else if (strcmp(beside, "MAP") == 0)
        is_begun = map(PROT_READ | PROT_WRITE, MAP_SHARED | MAP_ANONYMOUS, -1);
    else if (strcmp(beside, "WRITES") == 0)
        is_begun = map(PROT_WRITE, MAP_SHARED | MAP_ANONYMOUS, -1);
    else if (strcmp(beside, "NAMED") == 0)
        is_begun = map_named();
    else if (strcmp(beside, "FILE") == 0)
        is_begun = open(getenv("PROCESSES"), O_WRONLY | O_APPEND | O_CREAT, 0666) >= 0;
    else if (strcmp(beside, "SOCKET") == 0)
        is_begun = socket(AF_UNIX, SOCK_STREAM, 0) >= 0;
    if (!is_begun)
        abort();
}

int main(int count, char **words_given)
{
    tmwatch_memory faulty = memory;
    faulty.begin = begin;
    faulty.read = wrong_read;
    told_fault = getenv("FAULT") ? getenv("FAULT") : "NONE";
    odds = getenv("ODDS") ? strtoul(getenv("ODDS"), NULL, 10) : 1000;
    begin_beside(getenv("BESIDE") ? getenv("BESIDE") : "");
#ifdef DIRECT
    tmwatch_bench_result result;
    tmwatch_plan plan = TMWATCH_PLAN;
    plan.rounds = UINT64_MAX;
    plan.seconds = 2;
    return tmwatch_bench(&faulty, &plan, &result) == TMWATCH_OK ? (int)result.result.verdict : 4;
#endif
    return tmwatch_bench_main(&faulty, count, words_given);
}
