/* The trace of the run's end, and the steps of its round. */

enum { MOST_LEFT = 1000 /* traces in a folder that nobody has asked for */ };
static struct left {
    bool is_wanted;
    FILE *file; /* or null, if none can be opened by the last name */
    char name[40];
} left;

/* Where the trace of the first `at` events begins: at 0, or after a kept look: if something is wrong the last, else the first; or at `at`. */
static uint64_t first_of_trace(const struct bench *b, uint64_t at, uint64_t events, bool is_wrong)
{
    uint64_t look_events = 2 * b->plan.registers + 2;
    uint64_t earliest = events > KEPT ? events - KEPT + look_events : 0, found = earliest == 0 ? 0 : at;
    for (uint64_t from = earliest + 1; from < at && (is_wrong || found == at); from++)
        if (b->kept[(from - 1) % KEPT].looks)
            found = from;
    return found;
}

static void write_event(FILE *file, const struct kept *event)
{
    fprintf(file, "%u %c", (unsigned)event->thread, event->letter);
    if (strchr("RWN", event->letter))
        fprintf(file, " %u", (unsigned)event->reg);
    if (strchr("VWN", event->letter))
        fprintf(file, " %" PRIu64, event->value);
    fputc('\n', file);
}

/* What register `reg` holds when a trace begins there: what a look that ends there has read, or the run's start. */
static uint64_t start_of_trace(const struct bench *b, uint64_t from, uint64_t at, unsigned reg)
{
    uint64_t answer = from - 1 - 2 * (b->plan.registers - reg);
    return from == 0 || from == at ? b->plan.start[reg] : b->kept[answer % KEPT].value;
}

static void write_header(const struct bench *b, uint64_t from, uint64_t at)
{
    fprintf(b->plan.trace, "opacity-trace 2 %u", (unsigned)b->plan.registers);
    for (unsigned reg = 0; reg < b->plan.registers; reg++)
        fprintf(b->plan.trace, " %" PRIu64, start_of_trace(b, from, at, reg));
    fputc('\n', b->plan.trace);
}

/* Writes the trace: how many events precede it. Of a look that is rolled back again and again it has the first attempts. */
static uint64_t write_trace(const struct bench *b, tmwatch_result result)
{
    bool is_wrong = result.verdict != TMWATCH_OPAQUE_SO_FAR || b->has_rejected;
    uint64_t at = result.at > 0 ? result.at : b->has_rejected ? b->rejected_at : result.events;
    uint64_t from = first_of_trace(b, at, result.events, is_wrong);
    write_header(b, from, at);
    for (uint64_t place = from; place < at; place++)
        write_event(b->plan.trace, &b->kept[place % KEPT]);
    return from;
}

/* A digest of the trace of what is wrong (Fowler, Noll and Vo), by which it is like another. */
static uint64_t digest_of(const struct bench *b, tmwatch_result result)
{
    const uint64_t prime = 0x100000001B3;
    uint64_t it = 0xCBF29CE484222325 ^ result.at;
    for (uint64_t place = first_of_trace(b, result.at, result.events, true); place < result.at; place++) {
        const struct kept *event = &b->kept[place % KEPT];
        it = ((it ^ event->value) * prime ^ ((uint64_t)event->letter << 16 | (uint64_t)event->reg << 8 | event->thread)) * prime;
    }
    return it;
}

/* Opens a file for the trace of a violation that may not repeat, by the first name that is nobody's, nor was: what lies beside it stays too. */
static FILE *open_left(void)
{
    char report[sizeof left.name + 7], number[12] = "";
    for (unsigned i = 2; i <= MOST_LEFT; i++) {
        snprintf(left.name, sizeof left.name, "tmwatch-bench%s.trace", number);
        snprintf(report, sizeof report, "%s.report", left.name);
        snprintf(number, sizeof number, "-%u", i);
        if (access(report, F_OK) != 0 && ((left.file = fopen(left.name, "wx")) || errno != EEXIST))
            break;
    }
    return left.file;
}

/* Lists the steps of a round, if all are kept: how many events of it precede each, the thread, and the address of the call. */
static void write_steps(const struct bench *b, FILE *file, uint64_t round)
{
    const struct steps *s = &b->steps;
    uint64_t from = s->starts[round % STARTS], end = round < s->begun ? s->starts[(round + 1) % STARTS] : UINT64_MAX;
    uint64_t first = s->inner > LISTED ? s->inner - LISTED : 0;
    if (first > 0 && s->listed[first % LISTED].recorded > from)
        return;
    for (uint64_t i = first; i < s->inner; i++) {
        const struct listed *it = &s->listed[i % LISTED];
        struct found found = {(uintptr_t)it->at - 1, "", false};
        if (it->recorded < from || it->recorded >= end)
            continue;
        dl_iterate_phdr(find_library, &found);
        fprintf(file, "%" PRIu64 " %u 0x%" PRIxPTR "%s%s\n", it->recorded - from, it->thread, found.at, found.name[0] ? " " : "", found.name);
    }
}
