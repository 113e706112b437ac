/* What is wrong with a program, in one line: which thread, which call, and what came. */
#include "lines.h"
#include <stdarg.h>
#include <string.h>
#include <sys/wait.h>
#include <unistd.h>

atomic_bool is_running;

_Noreturn void fail(unsigned thread, const char *format, ...)
{
    static atomic_flag is_said = ATOMIC_FLAG_INIT;
    static char text[512];
    bool is_pending, is_answer = strncmp(format, "the answer", strlen("the answer")) == 0;
    const char *call = call_of(thread, &is_pending);
    va_list words;
    while (atomic_flag_test_and_set(&is_said))
        pause();
    int length = is_pending && !is_answer ? snprintf(text, sizeof text, "thread %u, call \"%s\": ", thread, call)
                                          : snprintf(text, sizeof text, "thread %u%s: ", thread, is_pending ? "" : ", between calls");
    va_start(words, format);
    vsnprintf(text + length, sizeof text - (size_t)length, format, words);
    va_end(words);
    if (is_running)
        tmwatch_bench_fail(text);
    while (atomic_exchange(&shared->has_failed, true))
        pause();
    fprintf(stderr, "%s\n", text);
    puts("{\"fault\":\"program\"}");
    fflush(stdout);
    _exit(FAULT);
}

_Noreturn void fail_answer(unsigned thread, const char *answer, const char *hint)
{
    bool is_pending;
    const char *call = call_of(thread, &is_pending);
    if (!is_pending)
        fail(thread, "the line \"%s\" is not an answer%s", answer, hint);
    const char *wanted = call[0] == 'W' ? "\"K\" or " : call[0] == 'T' ? "\"C\" or " : call[0] == 'X' ? "" : "\"V number\" or ";
    fail(thread, "the answer to \"%s\" was \"%s\", not %s\"A\"%s", call, answer, wanted, hint);
}

/* How long a program that has closed its output has to end. */
enum { END_TRIES = 1000, EACH_TRY = 1000 /* microseconds */ };

_Noreturn void fail_ended(unsigned thread)
{
    struct program *it = program_of(thread);
    siginfo_t ended = {.si_signo = 0};
    for (int i = 0; i < END_TRIES && waitid(P_PID, (id_t)it->pid, &ended, WEXITED | WNOHANG | WNOWAIT) == 0 && ended.si_pid == 0; i++)
        usleep(EACH_TRY);
    if (it->have > 0)
        fail(thread, "the program has ended after half a line, \"%s\"", shown(it->text, it->have));
    if (ended.si_pid == 0)
        fail(thread, "the program has closed its standard input or output, and goes on");
    if (ended.si_code != CLD_EXITED)
        fail(thread, "the program was ended by signal %d (%s)", ended.si_status, strsignal(ended.si_status));
    fail(thread, "the program has ended with status %d", ended.si_status);
}

/* A copy of a line whose characters can be printed. */
const char *shown(const char *line, size_t length)
{
    static _Thread_local char text[4 * MOST_LINE + 4];
    size_t at = 0;
    for (size_t i = 0; i < length && i < MOST_LINE; i++)
        at += (size_t)snprintf(text + at, sizeof text - at, line[i] >= ' ' && line[i] <= '~' ? "%c" : "\\x%02x", (unsigned char)line[i]);
    snprintf(text + at, sizeof text - at, "%s", length > MOST_LINE ? ".." : "");
    return text;
}
