/* tmwatch-bench: the bench of tmwatch_bench.h for a memory or a store in any language, by calls and answers that are lines (docs/LINES.md). Its own
   options are here; all others are the bench's. */
#include "lines.h"
#include <signal.h>
#include <stdlib.h>
#include <string.h>
#include <time.h>

struct options options = {.by_all = true, .startup_timeout = 60, .threads = MOST_THREADS, .registers = MOST_REGISTERS, .jobs = 1};

/* The words of the bench: its name, what was given, and a null. */
static char **bench_words;
static int bench_count;

uint64_t now(void)
{
    struct timespec time;
    clock_gettime(CLOCK_MONOTONIC, &time);
    return (uint64_t)time.tv_sec * SECOND + (uint64_t)time.tv_nsec;
}

/* An option: its name, what it takes, or nothing, what it is for, and where it goes: one of three. */
static const struct option {
    const char *name, *takes, *text;
    bool *flag;
    const char **command;
    uint64_t *number;
} own[] = {{"--setup", "COMMAND", "run this first; it must set every register to 0", NULL, &options.setup, NULL},
           {"--teardown", "COMMAND", "run this last, however the run ended", NULL, &options.teardown, NULL},
           {"--single-process", "", "start PROGRAM only once, for all threads", &options.is_single, NULL, NULL},
           {"--add", "", "PROGRAM supports adds (N)", &options.has_add, NULL, NULL},
           {"--startup-timeout", "N", "seconds until PROGRAM must be ready (60)", NULL, NULL, &options.startup_timeout},
           {"--blocked-after", "MS", "after this time a call counts as blocked (measured)", NULL, NULL, &options.blocked_after},
           {"--crash", "COMMAND", "kill and restart the store with this, at random calls", NULL, &options.crash, NULL},
           {"--full-trace", "FILE", "write the whole run to FILE; implies --keep-going", NULL, &options.full_trace, NULL}};
enum { OWN = sizeof own / sizeof own[0], MOST_NUMBER = 1000000, USUAL_THREADS = 4, MORE_WORDS = 4 };

static int tell_help(void)
{
    puts("usage: tmwatch-bench [OPTION].. -- PROGRAM [ARGUMENT]..\n"
         "Tests a database or any other store for opacity. Starts PROGRAM once per thread,\n"
         "sends it the calls of random transactions, and checks its answers (LINES.md).\n\nThe store:");
    for (size_t i = 0; i < OWN; i++)
        printf("  %s %-*s %s\n", own[i].name, 21 - (int)strlen(own[i].name), own[i].takes, own[i].text);
    puts("What to run:");
    tmwatch_bench_print_help(stdout);
    puts("  --help, --version      print this, or the version\n"
         "Exit status: 0 opaque so far, 1 violated, 2 undecided, 3 malformed, 4 fault");
    return fflush(stdout) == 0 ? 0 : FAULT;
}

#define REFUSE(...) (puts("{\"fault\":\"usage\"}"), fflush(stdout), fprintf(stderr, __VA_ARGS__), fputs("\nTry --help.\n", stderr), FAULT)

/* The number that a word is, or one too many if it is none. */
static uint64_t number_of(const char *word)
{
    size_t digits = word ? strspn(word, "0123456789") : 0;
    uint64_t number = digits > 0 && word[digits] == '\0' ? strtoull(word, NULL, 10) : MOST_NUMBER + 1;
    return number > MOST_NUMBER ? MOST_NUMBER + 1 : number;
}

/* Reads an option of this program: whether it has its value. */
static bool read_own(const struct option *option, char **words)
{
    if (option->flag)
        *option->flag = true;
    else if (option->command)
        *option->command = words[1];
    else
        *option->number = number_of(words[1]);
    return option->flag || (words[1] && (!option->number || (*option->number > 0 && *option->number <= MOST_NUMBER)));
}

static const struct option *find_own(const char *word)
{
    for (size_t i = 0; i < OWN; i++)
        if (strcmp(own[i].name, word) == 0)
            return &own[i];
    return NULL;
}

/* Takes from an option of the bench what this program has to know, too: how many threads and registers there are at most. Only by all are
   they drawn. */
static void look_at(char **words)
{
    static bool is_given;
    uint64_t number = number_of(words[1]);
    if (strcmp(words[0], "--threads") == 0 && number >= 1 && number <= MOST_THREADS) {
        options.threads = (unsigned)number;
        is_given = true;
    }
    if (strcmp(words[0], "--registers") == 0 && number >= 1 && number <= MOST_REGISTERS)
        options.registers = (unsigned)number;
    if (strcmp(words[0], "--jobs") == 0 && number >= 1 && number <= MOST_JOBS)
        options.jobs = number;
    if (strcmp(words[0], "--schedule") == 0 && words[1])
        options.by_all = strcmp(words[1], "all") == 0;
    if (!options.by_all && !is_given)
        options.threads = USUAL_THREADS;
}

/* Reads the words up to "--": the word that is wrong, or none. Those of the bench are kept. */
static const char *read_words(char **words)
{
    for (; *words && strcmp(*words, "--") != 0; words++) {
        const struct option *option = find_own(*words);
        if (!option) {
            look_at(words);
            bench_words[bench_count++] = *words;
            continue;
        }
        if (!read_own(option, words))
            return *words;
        words += !option->flag;
    }
    options.program = *words ? words + 1 : words;
    return NULL;
}

/* The program's words in one line, which is what the run is of. */
static char *name_of_run(void)
{
    char *name = NULL;
    size_t size = 0;
    FILE *file = open_memstream(&name, &size);
    for (char **word = options.program; file && *word; word++)
        fprintf(file, "%s%s", word == options.program ? "" : " ", *word);
    return file && fclose(file) == 0 ? name : options.program[0];
}

/* In each process of a job, before its run. Signals end it meanwhile. */
bool tmwatch_bench_job(unsigned job, const tmwatch_plan *plan)
{
    struct sigaction interrupt, end, usual = {.sa_handler = SIG_DFL};
    sigaction(SIGINT, &usual, &interrupt);
    sigaction(SIGTERM, &usual, &end);
    bool is_begun = begin_job(job);
    if (is_begun) {
        begin_crashes(plan->seed);
        open_record();
        start_programs();
    }
    sigaction(SIGINT, &interrupt, NULL);
    sigaction(SIGTERM, &end, NULL);
    return is_begun;
}

static int run_bench(void)
{
    const tmwatch_memory memory = lines_memory();
    int status = tmwatch_bench_main(&memory, bench_count, bench_words);
    if (status == 0)
        tell_left_open();
    return fflush(stdout) == 0 ? status : FAULT;
}

/* Tells the programs and commands how many threads and registers there are. */
static void set_environment(void)
{
    const char threads[] = {(char)('0' + options.threads), '\0'}, registers[] = {(char)('0' + options.registers), '\0'};
    setenv("TMWATCH_THREADS", threads, 1);
    setenv("TMWATCH_REGISTERS", registers, 1);
}

int main(int count, char **words)
{
    if (!tmwatch_bench_open_standard())
        return FAULT;
    if (count == 2 && strcmp(words[1], "--help") == 0)
        return tell_help();
    bench_words = calloc((size_t)count + MORE_WORDS, sizeof *bench_words);
    if (!bench_words)
        return FAULT;
    bench_words[bench_count++] = words[0];
    bench_words[bench_count++] = "--values";
    bench_words[bench_count++] = "small";
    if (count == 2 && strcmp(words[1], "--version") == 0)
        return tmwatch_bench_main(NULL, count, words);
    const char *wrong = read_words(words + 1);
    if (wrong)
        return REFUSE("%s: the value is %s", wrong, find_own(wrong)->number ? "not a number from 1 to 1000000" : "missing");
    if (!options.program[0])
        return REFUSE("tmwatch-bench: the program is missing. Write it after --");
    if (options.full_trace && options.crash)
        return REFUSE("--full-trace: not with --crash");
    if (options.full_trace)
        bench_words[bench_count++] = "--keep-going";
    if (options.crash)
        bench_words[bench_count++] = "--crashes";
    if (options.crash && options.threads < MOST_THREADS)
        options.threads++;
    bench_words[0] = name_of_run();
    set_environment();
    return supervise_run(run_bench);
}
