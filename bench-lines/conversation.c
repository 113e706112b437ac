/* Lines: a call goes out, and its answer comes in. Of threads that share a program one reads for all, and the others sleep. */
#include "lines.h"
#include <errno.h>
#include <poll.h>
#include <semaphore.h>
#include <stdarg.h>
#include <string.h>
#include <sys/ioctl.h>
#include <time.h>
#include <unistd.h>

/* A thread: its call, and the answer. */
static struct client {
    sem_t woken;
    char call[MOST_LINE], answer[MOST_LINE];
    atomic_bool is_pending, is_answered;
} clients[MOST_THREADS];

/* After so long, nothing more comes of half a line. */
#define HALF_A_LINE (2 * SECOND)
#define OURS ". (Use standard error for messages.)"

const char *call_of(unsigned thread, bool *is_pending)
{
    *is_pending = clients[thread].is_pending;
    return clients[thread].call;
}

static struct timespec time_of(uint64_t nanoseconds)
{
    return (struct timespec){(time_t)(nanoseconds / SECOND), (long)(nanoseconds % SECOND)};
}

static bool is_open(const struct client *it)
{
    return it->is_pending && !it->is_answered;
}

/* Whose answer comes next, as far as can be told: of threads that share a program, this one's if it waits. */
static unsigned expected(unsigned reader)
{
    for (unsigned i = 0; options.is_single && !is_open(&clients[reader]) && i < MOST_THREADS; i++)
        if (is_open(&clients[i]))
            return i;
    return reader;
}

/* Whether the threads have calls: else the programs are started, or were killed. */
static atomic_bool is_talking;

/* Gives a line to its thread. */
static void give(unsigned reader, const char *line, size_t length)
{
    unsigned own = expected(reader), thread = (unsigned)(line[0] - '0');
    if (length > 0 && line[length - 1] == '\r')
        length--;
    if (length < 3 || length >= MOST_LINE || thread >= MOST_THREADS || line[1] != ' ')
        fail_answer(own, shown(line, length), OURS);
    if (!options.is_single && thread != own)
        fail(own, "the line \"%s\" is an answer of thread %u, whose calls go to another process", shown(line, length), thread);
    struct client *it = &clients[thread];
    if (!is_open(it))
        fail(thread, "the line \"%s\" answers no call" OURS, shown(line, length));
    memcpy(it->answer, line + 2, length - 2);
    it->answer[length - 2] = '\0';
    it->is_answered = true;
    if (thread != reader)
        sem_post(&it->woken);
}

/* Gives all lines that are whole to their threads. */
static void give_lines(struct program *it, unsigned reader)
{
    char *at = it->text, *end;
    while ((end = memchr(at, '\n', it->have - (size_t)(at - it->text)))) {
        give(reader, at, (size_t)(end - at));
        at = end + 1;
    }
    it->have -= (size_t)(at - it->text);
    memmove(it->text, at, it->have);
    if (it->have >= MOST_LINE)
        fail_answer(expected(reader), shown(it->text, it->have), OURS);
}

/* Waits until the program writes: whether it has by then. What follows half a line has to come soon. */
static bool is_readable(const struct program *it, unsigned reader, uint64_t until)
{
    uint64_t from = now(), wait = until > from ? until - from : 0;
    bool is_half = it->have > 0 && wait > HALF_A_LINE;
    struct timespec time = time_of(is_half ? HALF_A_LINE : wait);
    struct pollfd polled = {it->from, POLLIN, 0};
    int count = ppoll(&polled, 1, &time, NULL);
    if (count == 0 && is_half)
        fail(expected(reader), "the line \"%s\" has no end, and nothing follows", shown(it->text, it->have));
    return count > 0;
}

/* Reads what the program has written, once that is there: whether it was by then. */
static bool read_lines(struct program *it, unsigned reader, uint64_t until)
{
    if ((it->have > 0 || until != FOREVER) && !is_readable(it, reader, until))
        return false;
    ssize_t length = read(it->from, it->text + it->have, sizeof it->text - it->have);
    if (has_crashed && is_talking)
        return false;
    if (length <= 0)
        fail_ended(expected(reader));
    it->have += (size_t)length;
    give_lines(it, reader);
    return true;
}

/* Stops reading, so that another thread reads that waits for an answer of the same program. */
static void stop_reading(struct program *it)
{
    it->is_read = false;
    for (unsigned i = 0; options.is_single && i < MOST_THREADS; i++)
        if (is_open(&clients[i])) {
            sem_post(&clients[i].woken);
            return;
        }
}

/* Sleeps until another thread that reads wakes this one: whether it has by then. */
static bool is_woken(struct client *it, uint64_t until)
{
    const struct timespec time = time_of(until);
    int status = until == FOREVER ? sem_wait(&it->woken) : sem_clockwait(&it->woken, CLOCK_MONOTONIC, &time);
    return status == 0 || errno == EINTR;
}

bool is_answered(unsigned thread, uint64_t until)
{
    struct client *it = &clients[thread];
    struct program *program = program_of(thread);
    bool is_late = false;
    while (!it->is_answered && !is_late && !(has_crashed && is_talking)) {
        if (!atomic_exchange(&program->is_read, true)) {
            is_late = !it->is_answered && !read_lines(program, thread, until) && now() >= until;
            stop_reading(program);
        } else
            is_late = !is_woken(it, until);
    }
    return it->is_answered;
}

/* Before a call nothing may have come but other threads' answers. */
static void read_left(unsigned thread)
{
    struct program *it = program_of(thread);
    int left = 0;
    if (ioctl(it->from, FIONREAD, &left) != 0 || left == 0 || atomic_exchange(&it->is_read, true))
        return;
    while (read_lines(it, thread, 0))
        ;
    stop_reading(it);
}

/* Writes a thread's call. */
static void write_call(unsigned thread)
{
    struct client *it = &clients[thread];
    size_t length = strlen(it->call);
    char line[MOST_LINE + 3] = {(char)('0' + thread), ' '};
    memcpy(line + 2, it->call, length);
    line[length + 2] = '\n';
    it->is_answered = false;
    it->is_pending = true;
    if (is_talking)
        record(thread, it->call);
    if (write(program_of(thread)->to, line, length + 3) != (ssize_t)length + 3 && !(has_crashed && is_talking))
        fail_ended(thread);
}

const char *ask(const char *format, ...)
{
    unsigned thread = tmwatch_thread();
    struct client *it = &clients[thread];
    va_list words;
    if (has_crashed)
        return NULL;
    va_start(words, format);
    vsnprintf(it->call, sizeof it->call, format, words);
    va_end(words);
    read_left(thread);
    write_call(thread);
    if (crashes_now())
        crash(thread);
    else
        await_answer(thread);
    return has_crashed ? NULL : it->answer;
}

void end_call(unsigned thread)
{
    if (is_talking)
        record(thread, clients[thread].answer);
    clients[thread].is_pending = false;
}

void begin_conversation(uint64_t until)
{
    is_talking = false;
    for (unsigned thread = 0; thread < options.threads; thread++) {
        sem_init(&clients[thread].woken, 0, 0);
        strcpy(clients[thread].call, "X");
        write_call(thread);
    }
    for (unsigned thread = 0; thread < options.threads; thread++) {
        if (!is_answered(thread, until))
            fail(thread, "no answer to the first line within %llu seconds (--startup-timeout)", (unsigned long long)options.startup_timeout);
        check_abort(thread, clients[thread].answer);
    }
    is_running = is_talking = true;
}

/* All threads that wait go on without an answer. */
void end_conversation(void)
{
    kill_programs();
    for (unsigned thread = 0; thread < options.threads; thread++)
        sem_post(&clients[thread].woken);
}
