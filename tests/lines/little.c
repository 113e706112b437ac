/*
A little store by lines, with one client a process or all in one, and with something wrong on purpose.

    little one WRONG          all threads in this process: registers that are read and validated by value
    little lock FILE WRONG    one thread; registers in a file, locked from a transaction's first call to its end

WRONG: right; reads or commit, which don't validate; adds, which are refused; slow, an answer that takes LONG microseconds (environment; 120000);
computes, one that is computed three times as long, and child or thread, if another one computes it; disk, one for which the process can't be
interrupted for so long; pieces, of which one has the end of a line and the begin of the next; first,
registers that begin with 7; or what goes wrong at call WHEN (environment; 26), by the words below.
*/
#define _GNU_SOURCE
#include <fcntl.h>
#include <poll.h>
#include <pthread.h>
#include <signal.h>
#include <stdbool.h>
#include <stdint.h>
#include <stdio.h>
#include <stdlib.h>
#include <string.h>
#include <sys/file.h>
#include <sys/mman.h>
#include <sys/wait.h>
#include <time.h>
#include <unistd.h>

enum { THREADS = 8, REGISTERS = 8 };

struct transaction {
    bool has_seen[REGISTERS], has_kept[REGISTERS];
    uint64_t seen[REGISTERS], kept[REGISTERS];
};

static struct transaction transactions[THREADS];
static uint64_t own[REGISTERS], *words = own;
static int lock = -1;
static bool has_lock;
static const char *wrong;
static long how_long = 120000;

static bool is_wrong(const char *what)
{
    return strcmp(wrong, what) == 0;
}

static bool is_valid(const struct transaction *tx)
{
    for (int i = 0; i < REGISTERS; i++)
        if (tx->has_seen[i] && tx->seen[i] != words[i])
            return false;
    return true;
}

static bool reads(struct transaction *tx, unsigned reg, uint64_t *value)
{
    if (!is_wrong("reads") && !is_valid(tx))
        return false;
    if (!tx->has_kept[reg] && !tx->has_seen[reg])
        tx->seen[reg] = words[reg];
    tx->has_seen[reg] |= !tx->has_kept[reg];
    *value = tx->has_kept[reg] ? tx->kept[reg] : tx->seen[reg];
    return true;
}

static bool writes(struct transaction *tx, unsigned reg, uint64_t value)
{
    tx->has_kept[reg] = true;
    tx->kept[reg] = value;
    return true;
}

static bool commits(const struct transaction *tx)
{
    if (!is_wrong("commit") && !is_valid(tx))
        return false;
    for (int i = 0; i < REGISTERS; i++)
        if (tx->has_kept[i])
            words[i] = tx->kept[i];
    return true;
}

/* Makes a call, and writes its answer. */
static void make_call(const char *call, char *answer)
{
    unsigned reg = 0;
    uint64_t number = 0, value = 0;
    struct transaction *tx = &transactions[call[0] - '0'];
    sscanf(call + 3, "%u %lu", &reg, &number);
    if (lock >= 0 && !has_lock)
        has_lock = flock(lock, LOCK_EX) == 0;
    bool is_done = call[2] == 'R'   ? reads(tx, reg, &value)
                   : call[2] == 'W' ? writes(tx, reg, number)
                   : call[2] == 'N' ? !is_wrong("adds") && reads(tx, reg, &value) && writes(tx, reg, value + number)
                   : call[2] == 'T' ? commits(tx)
                                    : false;
    if (call[2] == 'T' || !is_done) {
        memset(tx, 0, sizeof *tx);
        has_lock = lock >= 0 && flock(lock, LOCK_UN) != 0;
    }
    if (is_done && (call[2] == 'R' || call[2] == 'N'))
        sprintf(answer, "%c V %lu\n", call[0], value);
    else
        sprintf(answer, "%c %c\n", call[0], !is_done ? 'A' : call[2] == 'W' ? 'K' : 'C');
}

static void say(const char *text)
{
    if (write(1, text, strlen(text)) < 0)
        _exit(5);
}

/* What goes wrong once: the text that is written in place of the answer, or null. */
static const char *text_of_wrong(const char *call, const char *answer)
{
    static char text[200];
    const char *line[][2] = {
        {"half", "%c V"},          {"text", "hello from the store\n"},
        {"blank", "\n"},           {"register", "9 C\n"},
        {"kind", "%c K\n"},        {"huge", "%c V 18446744073709551616\n"},
        {"negative", "%c V -1\n"}, {"long", "%c V 0000000000000000000000000000000000000000000000000000000000000000001\n"},
        {"control", "%c \001\n"},  {"silent", ""},
        {"empty", "%c V \n"},      {"unended", "%c V 0000000000000000000000000000000000000000000000000000000000000000001"}};
    for (size_t i = 0; i < sizeof line / sizeof line[0]; i++)
        if (is_wrong(line[i][0])) {
            snprintf(text, sizeof text, line[i][1], call[0]);
            return text;
        }
    if (is_wrong("other"))
        snprintf(text, sizeof text, "%c%s", call[0] == '7' ? '0' : call[0] + 1, answer + 1);
    if (is_wrong("twice"))
        snprintf(text, sizeof text, "%s%s", answer, answer);
    return text[0] ? text : NULL;
}

/* Computes for three times as long. */
static void *compute(void *unused)
{
    struct timespec began, time;
    clock_gettime(CLOCK_MONOTONIC, &began);
    do
        clock_gettime(CLOCK_MONOTONIC, &time);
    while ((time.tv_sec - began.tv_sec) * 1000000 + (time.tv_nsec - began.tv_nsec) / 1000 < 3 * how_long);
    return unused;
}

/* Has another one compute or sleep, and sleeps until it has. */
static void let_compute(void)
{
    pthread_t thread;
    if (is_wrong("thread") && pthread_create(&thread, NULL, compute, NULL) == 0)
        pthread_join(thread, NULL);
    pid_t child = is_wrong("child") ? fork() : -1;
    if (child == 0) {
        compute(NULL);
        _exit(0);
    }
    if (child > 0)
        waitpid(child, NULL, 0);
    if (is_wrong("disk") && vfork() == 0) {
        usleep((useconds_t)(3 * how_long));
        _exit(0);
    }
}

/* Ends, or writes something else than the answer, or something more. */
static void go_wrong(const char *call, const char *answer)
{
    if (is_wrong("ends"))
        exit(3);
    if (is_wrong("killed"))
        raise(SIGKILL);
    if (is_wrong("half_end"))
        say("0 V"), exit(0);
    if (is_wrong("closes"))
        close(1), pause();
    if (is_wrong("slow"))
        usleep((useconds_t)how_long);
    if (is_wrong("computes"))
        compute(NULL);
    let_compute();
    const char *text = text_of_wrong(call, answer);
    say(text ? text : answer);
    if (is_wrong("more")) /* (once another thread has made a call) */
        poll(&(struct pollfd){0, POLLIN, 0}, 1, -1), say(answer);
}

/* Stays when it is asked to end, with a child in a session of its own that stays too. */
static void stay(void)
{
    signal(SIGTERM, SIG_IGN);
    if (fork() == 0) {
        setsid();
        for (;;)
            pause();
    }
}

/* Keeps the end of each answer until the next one, or until no call has come for two milliseconds. */
static void serve_in_pieces(void)
{
    char call[100], text[200] = "";
    struct pollfd in = {0, POLLIN, 0};
    setvbuf(stdin, NULL, _IONBF, 0);
    for (size_t end = 0;; memmove(text, text + end, strlen(text + end) + 1)) {
        if (text[0] && poll(&in, 1, 2) == 0) {
            say(text);
            text[0] = '\0';
        }
        if (!fgets(call, sizeof call, stdin))
            return;
        make_call(call, text + strlen(text));
        end = strlen(text) - 3;
        if (write(1, text, end) < 0)
            _exit(5);
    }
}

static void serve(int when)
{
    char call[100], answer[100];
    for (int count = 0; fgets(call, sizeof call, stdin); count++) {
        make_call(call, answer);
        if (is_wrong("return"))
            sprintf(answer + strlen(answer) - 1, "\r\n");
        if (count == when)
            go_wrong(call, answer);
        else
            say(answer);
    }
    while (is_wrong("stays"))
        pause();
}

int main(int count, char **given)
{
    const char *when = getenv("WHEN"), *given_long = getenv("LONG");
    wrong = count > 2 ? given[count - 1] : "";
    how_long = given_long ? atol(given_long) : how_long;
    if (count == 4) {
        lock = open(given[2], O_RDWR | O_CREAT, 0600);
        if (lock < 0 || ftruncate(lock, sizeof own) != 0)
            return 1;
        words = mmap(NULL, sizeof own, PROT_READ | PROT_WRITE, MAP_SHARED, lock, 0);
    }
    for (int i = 0; is_wrong("first") && i < REGISTERS; i++)
        words[i] = 7;
    if (is_wrong("stays"))
        stay();
    if (is_wrong("banner"))
        say("a store, version 1\n");
    if (is_wrong("unready"))
        pause();
    if (is_wrong("pieces"))
        serve_in_pieces();
    else
        serve(when ? atoi(when) : 26);
    return 0;
}
