/*
What bench-c/instrumented/orders.c tells of a run, whole: which loads were stale and stores late, by their lines, from one event to another;
the first race; and what isn't simulated. It needs to be compiled with -g, and addr2line.
*/
#define draw_below(draws, below) ((void)(draws), (void)(below), 0u) /* of those that are older than the newest, the oldest */
#include "../../bench-c/instrumented/orders.c"
#include "../c/check.h"
#include <sys/wait.h>

enum word { X, Y, Z, WORDS };
enum { EARLY = 1, FIRST = 2, LAST = 9, MOST_TEXT = 4096, MOST_LINE = 128 };
static tmwatch_simulation *orders;
static atomic_uint_least64_t event = EARLY;
static _Atomic uint64_t words[WORDS];
static uint64_t plain;

/* Places in the program, each in a line of its own: where a call returns to is in the next one. */
enum mark { NEWER, LATER, LATEST, READS_LATER, READS_LATEST, MISSES, STORES_LATE, UNSEEN, PASSED_IN_CXX, PASSED_IN_RUST, QUOTED, LONG, PASSED_ALONE, MARKS };
static const void *places[MARKS];
static unsigned first_line;

__attribute__((noinline)) static void keep(enum mark mark)
{
    places[mark] = __builtin_return_address(0);
}

/* Lines of the libraries of C++ and Rust, which pass a call on. */
#define PASS __attribute__((always_inline)) static inline void
#line 1 "/usr/include/c++/12/bits/atomic_base.h"
PASS pass_in_cxx(enum mark mark) { keep(mark); }
__attribute__((noinline)) static void keep_passed(void) { keep(PASSED_ALONE); __asm__ volatile(""); }
#line 1 "/rust/src/sync/atomic.rs"
PASS pass_in_rust(enum mark mark) { keep(mark); }
#line 1 "a \"file\\"
__attribute__((noinline)) static void keep_quoted(void) { keep(QUOTED); __asm__ volatile(""); }
#define JOINED(first, second) first##second
#define JOIN(first, second) JOINED(first, second)
#define TWICE(name) JOIN(name, name)
#define LONG_NAME TWICE(TWICE(TWICE(TWICE(TWICE(TWICE(TWICE(a_long_name)))))))
#define TEXT_OF(name) #name
#define TEXT(name) TEXT_OF(name)
#line 1 "long"
__attribute__((noinline)) static void LONG_NAME(void) { keep(LONG); __asm__ volatile(""); }
#line 44 "told.c"

__attribute__((noinline)) static void keep_all(void)
{
    first_line = __LINE__ + 1;
    keep(NEWER);
    keep(LATER);
    keep(LATEST);
    keep(READS_LATER);
    keep(READS_LATEST);
    keep(MISSES);
    keep(STORES_LATE);
    keep(UNSEEN);
    pass_in_cxx(PASSED_IN_CXX);
    pass_in_rust(PASSED_IN_RUST);
    __asm__ volatile("");
}

/* An access there: of the newest store, or of the oldest that may be. */
static tmwatch_access access_at(unsigned thread, enum mark mark, enum word word, bool is_newest)
{
    orders->stale = orders->late = is_newest ? 0 : ODDS;
    return (tmwatch_access){orders, thread, places[mark], &words[word], sizeof words[word], RELAXED};
}

static void loads(unsigned thread, enum mark mark, enum word word, bool is_newest)
{
    tmwatch_access access = access_at(thread, mark, word, is_newest);
    tmwatch_orders_load(&access);
}

static void stores(unsigned thread, enum mark mark, enum word word, uint64_t value, bool is_newest)
{
    tmwatch_access access = access_at(thread, mark, word, is_newest);
    if (tmwatch_orders_store(&access, value))
        words[word] = value;
}

static void meets_all(void)
{
    stores(0, NEWER, X, 1, true);
    stores(0, LATER, Y, 1, true);
    stores(0, LATEST, Z, 1, true);
    loads(2, MISSES, X, false);
    event = FIRST;
    loads(4, READS_LATER, X, true);
    loads(4, MISSES, Y, false);
    loads(4, READS_LATEST, Y, false);
    loads(1, READS_LATER, Y, true);
    loads(1, READS_LATEST, Z, true);
    loads(1, READS_LATER, Z, true);
    loads(1, MISSES, X, false);
    loads(1, READS_LATER, Y, true);
    loads(1, MISSES, X, false);
    stores(3, STORES_LATE, Y, 2, false);
    stores(0, LATER, X, 3, true);
    loads(2, MISSES, X, false);
    event = LAST;
    loads(2, MISSES, Z, false);
    tmwatch_access stored = {orders, 0, places[NEWER], &plain, sizeof plain, 0}, loaded = {orders, 1, places[LATER], &plain, sizeof plain, 0};
    tmwatch_orders_plain(&stored, sizeof plain, true, true);
    tmwatch_orders_plain(&loaded, sizeof plain, false, true);
    tmwatch_orders_plain(&loaded, sizeof plain, true, true);
    words[X] = 4;
    loads(1, UNSEEN, X, true);
    tmwatch_orders_futex(orders, words, places[UNSEEN]);
}

/* An access of this order in a new round, from event LAST + 2 on, of which the model shows what pattern it is. */
static void accesses(unsigned thread, enum mark mark, enum word word, int order, uint64_t stored)
{
    tmwatch_access access = access_at(thread, mark, word, stored > 0 || mark != MISSES);
    access.order = order;
    if (stored == 0)
        tmwatch_orders_load(&access);
    else if (tmwatch_orders_store(&access, stored))
        words[word] = stored;
}

/* What is told of thread 1, which misses what thread 0 has stored to X before it stored to Y by this order; it has loaded that by this one. */
static void passes_message(int release, int acquire, bool is_fence)
{
    const tmwatch_access fence = {orders, 1, places[LATEST], NULL, 0, __ATOMIC_ACQUIRE};
    accesses(0, NEWER, X, RELAXED, words[X] + 1);
    accesses(0, LATER, Y, release, words[Y] + 1);
    accesses(1, READS_LATER, Y, acquire, 0);
    if (is_fence)
        tmwatch_orders_fence(&fence);
    accesses(1, MISSES, X, RELAXED, 0);
}

/* One thread stores to the first word and loads the second one, another the other way round, and neither sees the other. After its store one
   of them, or none, begins another attempt. */
static void buffers_stores(unsigned one, enum word first, unsigned other, enum word second, unsigned begins)
{
    accesses(one, NEWER, first, RELEASE, words[first] + 1);
    if (begins == one)
        tmwatch_orders_begins(orders, one);
    accesses(one, READS_LATER, second, __ATOMIC_ACQUIRE, 0);
    accesses(other, LATER, second, RELEASE, words[second] + 1);
    if (begins == other)
        tmwatch_orders_begins(orders, other);
    accesses(other, MISSES, first, __ATOMIC_ACQUIRE, 0);
}

/* Writes out a format in which %0 to %9 are these places. */
static void place_lines(const char *format, char *to)
{
    for (; *format; format++)
        if (*format == '%')
            to += snprintf(to, MOST_LINE, "told.c:%u (keep_all)", first_line + (unsigned)(*++format - '0'));
        else
            *to++ = *format;
    *to = '\0';
}

/* Whether a text is the wanted one. Else both are printed. */
static bool is_text(char *text, const char *format)
{
    char wanted[MOST_TEXT];
    place_lines(format, wanted);
    bool is_wanted = strcmp(text, wanted) == 0;
    if (!is_wanted)
        fprintf(stderr, "%s--- and not\n%s", text, wanted);
    free(text);
    return is_wanted;
}

static char *told(uint64_t from, uint64_t to)
{
    char *text = NULL;
    size_t size;
    FILE *file = open_memstream(&text, &size);
    tmwatch_orders_tell(orders, file, from, to);
    fclose(file);
    return text;
}

static char *told_place(const void *place)
{
    char *text = NULL;
    size_t size;
    FILE *file = open_memstream(&text, &size);
    print_place(file, place);
    fclose(file);
    return text;
}

static char *told_race(void)
{
    char *text = calloc(1, MOST_TEXT);
    tmwatch_orders_tell_race(orders, text, MOST_TEXT);
    return text;
}

/* What is told of a load by thread 2 that is delayed past the store which thread 5 has met, in a file whose name has quotes. */
static char *told_delay(void)
{
    const tmwatch_delay delay = {.load = places[NEWER], .store = places[QUOTED], .met_stored = places[LATEST], .met_loaded = places[MISSES],
                                 .loader = 2, .storer = 5};
    char *text = calloc(1, MOST_TEXT);
    tmwatch_orders_tell_delay(&delay, text, MOST_TEXT);
    return text;
}

/* A line that addr2line has printed, as it is told. */
static char *told_line(const char *printed)
{
    char *line = NULL;
    size_t size = 0;
    FILE *file = fmemopen((void *)(uintptr_t)printed, strlen(printed), "r");
    CHECK(read_line(file, &line, &size));
    fclose(file);
    return line;
}

/* What a command prints that is started on a file of this name, and `b`. */
static char *printed_on(const char *name)
{
    char *line = NULL;
    size_t size = 0;
    FILE *file = start_on_file(&(struct found){.name = name}, "b", "echo \"$@\"");
    CHECK(file && read_line(file, &line, &size) && pclose(file) == 0);
    return line;
}

/* What is told of these kinds, which the call answers with as bits. */
static char *told_unseen(bool is_wrong, uint64_t kinds)
{
    char *text = NULL;
    size_t size;
    FILE *file = open_memstream(&text, &size);
    CHECK(tmwatch_orders_tell_untracked(orders, file, is_wrong) == kinds);
    fclose(file);
    return text;
}

int main(void)
{
    static const uint64_t all_kinds = 1 << UNMARKED_STORE | 1 << UNMARKED_LOCK;
    orders = tmwatch_orders_new(1, &event, NULL);
    keep_all();
    keep_quoted();
    LONG_NAME();
    keep_passed();
    /* (one that waits for a further line without end is wrong) */
    alarm(60);
    CHECK(is_text(told_unseen(true, 0), "") && is_text(told_race(), ""));
    meets_all();
    CHECK(is_text(told(FIRST, LAST), "C++20 allows this, which happened earlier in this round:\n"
                                     "  stale load: thread 4 at %5 missed thread 0's store at %1\n"
                                     "  stale load: thread 4 at %4 missed thread 0's store at %1\n"
                                     "  stale load: thread 1 at %5 missed thread 0's store at %0 (and 1 like this)\n"
                                     "    although thread 1 had already seen thread 0's later store at %2, at %4\n"
                                     "    message passing: thread 0 needs a release between its two stores, and thread 1 needs an acquire between its "
                                     "two accesses\n"
                                     "  late store: thread 3 at %6 is ordered before thread 0's store at %1\n"
                                     "  stale load: thread 2 at %5 missed thread 0's store at %0 and 1 later store\n"));
    CHECK(is_text(told(EARLY, FIRST), "C++20 allows this, which happened earlier in this round:\n"
                                      "  stale load: thread 2 at %5 missed thread 0's store at %0\n"));
    static const char missed[] = "C++20 allows this, which happened earlier in this round:\n"
                                 "  stale load: thread 1 at %5 missed thread 0's store at %0\n";
#define PATTERN(makes, text)                                   \
    do {                                                       \
        char wanted[MOST_TEXT];                                \
        event++;                                               \
        tmwatch_orders_round(orders);                          \
        makes;                                                 \
        snprintf(wanted, sizeof wanted, "%s%s", missed, text); \
        CHECK(is_text(told(event, event + 1), wanted));        \
    } while (0)
    event = LAST + 2;
#define READ_BEFORE "    although thread 1 had already seen thread 0's later store at %1, at %3\n"
#define LACKS_RELEASE "    message passing: thread 0 needs a release between its two stores\n"
#define LACKS_ACQUIRE "    message passing: thread 1 needs an acquire between its two accesses\n"
    PATTERN(passes_message(RELAXED, __ATOMIC_ACQUIRE, false), READ_BEFORE LACKS_RELEASE);
    PATTERN(passes_message(RELAXED, RELAXED, true), READ_BEFORE LACKS_RELEASE);
    PATTERN(passes_message(RELEASE, RELAXED, false), READ_BEFORE LACKS_ACQUIRE);
    PATTERN(passes_message(RELAXED, RELAXED, false), READ_BEFORE "    message passing: thread 0 needs a release between its two stores, and "
                                                                 "thread 1 needs an acquire between its two accesses\n");
    PATTERN(buffers_stores(0, X, 1, Y, THREADS), "    and after that store, thread 0 missed thread 1's store at %1, at %3\n"
                                                 "    store buffering: both need a full fence between the store and the load\n");
    PATTERN(buffers_stores(0, X, 1, Y, 0), "");
    PATTERN(buffers_stores(0, X, 1, Y, 1), "");
    PATTERN(accesses(0, READS_LATER, Y, RELAXED, 0); accesses(0, NEWER, X, RELEASE, words[X] + 1);
            accesses(1, LATER, Y, RELEASE, words[Y] + 1); accesses(1, MISSES, X, RELAXED, 0), "");
    PATTERN(accesses(1, LATER, Y, RELEASE, words[Y] + 1); accesses(0, NEWER, X, RELEASE, words[X] + 1);
            accesses(0, READS_LATER, Y, RELAXED, 0); accesses(1, MISSES, X, RELAXED, 0), "");
    PATTERN(passes_message(RELEASE, RELAXED, false); buffers_stores(2, Z, 3, X, THREADS),
            READ_BEFORE "  stale load: thread 3 at %5 missed thread 2's store at %0\n");
    PATTERN(accesses(0, NEWER, X, RELEASE, words[X] + 1); accesses(1, MISSES, X, __ATOMIC_ACQUIRE, 0), "");
    CHECK(is_text(told(0, EARLY), "") && is_text(told(LAST + 1, LAST + 2), ""));
    CHECK(is_text(told_race(), "thread 1 reads at %1, thread 0 writes at %0"));
    CHECK(is_text(told_delay(), "thread 2 loads atomically at %0, thread 5 stores atomically at a 'file':1 (keep_quoted), although thread 2 had already "
                                "seen thread 5's later store at %2, at %5: load buffering, so thread 2 needs a release and thread 5 an acquire between "
                                "its two accesses"));
    CHECK(is_text(told_line("told.c:9 (discriminator 3)\n"), "told.c:9"));
    CHECK(is_text(printed_on("a \"$file\""), "a \"$file\" b") && !start_on_file(&(struct found){.name = "it's"}, "", "echo"));
    CHECK(is_text(told_place(places[LONG]), "long:1 (" TEXT(LONG_NAME) ")"));
    CHECK(is_text(told_unseen(false, all_kinds), ""));
    CHECK(is_text(told_unseen(true, all_kinds),
                  "warning: code that the compiler has not marked, or a thread of the memory's own, stores to what is loaded at %7. What that "
                  "orders is not tracked, so a violation may be false\n"
                  "warning: a lock or a wait of code that the compiler has not marked, in %7. What that orders is not tracked, so a violation may be "
                  "false\n"));
    CHECK(is_text(told_place(places[PASSED_IN_CXX]), "%8") && is_text(told_place(places[PASSED_IN_RUST]), "%9"));
    CHECK(is_text(told_place(places[PASSED_ALONE]), "atomic_base.h:2 (keep_passed)"));
    CHECK(is_text(told_place(NULL), "a place that is not known") && is_text(told_place(&(char){0}), "a place that is not known"));
    /* (each process that was asked for lines has been waited for) */
    CHECK(waitpid(-1, NULL, WNOHANG) < 0);
    free(orders);
    return 0;
}
