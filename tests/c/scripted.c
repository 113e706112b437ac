/* Scripted transactions: what is recorded, each misuse that is answered, and what stands afterwards. */
#include "check.h"

static tmwatch watch;
static tmwatch_recorder recorder;
static const tmwatch_call calls[] = {{'R', 0, 0}, {'W', 0, 7}, {'N', 0, 2}, {'T', 0, 0}};
enum { COUNT = sizeof calls / sizeof *calls };

static void open_one(uint64_t limit)
{
    tmwatch_settings settings = TMWATCH_SETTINGS(1);
    settings.limit = limit;
    CHECK(tmwatch_open(&watch, &recorder, 1, &settings) == TMWATCH_OK);
}

/* Closes the watch: nothing is wrong with so many events. */
static void close_one(uint64_t events)
{
    tmwatch_result result;
    CHECK(tmwatch_close(&watch, &recorder, 1, &result) == TMWATCH_OK);
    CHECK(tells(result, events, TMWATCH_OPAQUE_SO_FAR, 0, 0));
}

static bool is_at(tmwatch_cursor cursor, size_t place, uint32_t phase)
{
    return cursor.place == place && cursor.phase == phase;
}

/* Records the next call and this answer, which is the event at this place of the log. */
static void call_once(tmwatch_cursor *cursor, char letter, uint64_t value, uint64_t wanted)
{
    uint64_t place = 99;
    CHECK(tmwatch_record_next_call(&recorder, calls, COUNT, cursor, &place) == TMWATCH_OK && cursor->phase == TMWATCH_WAITS);
    CHECK(place + 1 == wanted);
    CHECK(tmwatch_record_answer(&recorder, calls, COUNT, cursor, (uint32_t)letter, value, &place) == TMWATCH_OK);
    CHECK(place == wanted);
}

static void a_transaction_commits_and_another_aborts(void)
{
    tmwatch_cursor cursor = TMWATCH_CURSOR_INIT, other = TMWATCH_CURSOR_INIT;
    open_one(100);
    call_once(&cursor, 'V', 0, 1);
    CHECK(is_at(cursor, 1, TMWATCH_DUE));
    call_once(&cursor, 'K', 0, 3);
    CHECK(is_at(cursor, 2, TMWATCH_DUE));
    call_once(&cursor, 'V', 7, 5);
    CHECK(is_at(cursor, 3, TMWATCH_DUE));
    call_once(&cursor, 'C', 0, 7);
    CHECK(is_at(cursor, 3, TMWATCH_OVER));
    call_once(&other, 'V', 9, 9);
    call_once(&other, 'A', 0, 11);
    CHECK(is_at(other, 1, TMWATCH_OVER));
    close_one(12);
}

/* The answers are recorded as they are told: a read of a value that was never written is a violation. */
static void a_wrong_value_is_recorded(void)
{
    tmwatch_cursor cursor = TMWATCH_CURSOR_INIT;
    tmwatch_result result;
    open_one(100);
    call_once(&cursor, 'V', 5, 1);
    CHECK(tmwatch_close(&watch, &recorder, 1, &result) == TMWATCH_OK);
    CHECK(tells(result, 2, TMWATCH_VIOLATED, 2, 0));
}

/* Telling this answer is answered so, and changes nothing. */
static void is_refused(tmwatch_cursor cursor, size_t count, char letter, uint32_t status)
{
    tmwatch_cursor same = cursor;
    uint64_t place = 99;
    CHECK(tmwatch_record_answer(&recorder, calls, count, &same, (uint32_t)letter, 0, &place) == status);
    CHECK(place == 99 && is_at(same, cursor.place, cursor.phase));
}

/* So is recording the next call. */
static void is_no_call(const tmwatch_call *those, size_t count, tmwatch_cursor cursor, uint32_t status)
{
    tmwatch_cursor same = cursor;
    uint64_t place = 99;
    CHECK(tmwatch_record_next_call(&recorder, those, count, &same, &place) == status);
    CHECK(place == 99 && is_at(same, cursor.place, cursor.phase));
}

static void what_does_not_fit_is_refused(void)
{
    static const tmwatch_call wrong[] = {{'V', 0, 0}, {'Q', 0, 0}, {'R', 1, 0}, {'T', 0, 0}, {'X', 0, 0}, {'R', 0, 0}};
    uint64_t place;
    tmwatch_cursor due = TMWATCH_CURSOR_INIT, waits = {0, TMWATCH_WAITS}, over = {0, TMWATCH_OVER}, high = {COUNT, TMWATCH_DUE};
    is_no_call(calls, COUNT, due, TMWATCH_NO_HANDLE);
    is_refused(waits, COUNT, 'V', TMWATCH_NO_HANDLE);
    open_one(100);
    is_refused(due, COUNT, 'V', TMWATCH_WRONG_PHASE);
    is_refused(over, COUNT, 'V', TMWATCH_WRONG_PHASE);
    is_refused(waits, 0, 'V', TMWATCH_WRONG_PHASE);
    is_no_call(calls, COUNT, waits, TMWATCH_WRONG_PHASE);
    is_no_call(calls, COUNT, over, TMWATCH_WRONG_PHASE);
    is_no_call(calls, COUNT, high, TMWATCH_WRONG_PHASE);
    is_no_call(calls, 0, due, TMWATCH_WRONG_PHASE);
    is_no_call(wrong, 3, due, TMWATCH_NOT_A_CALL);
    is_no_call(wrong + 1, 2, due, TMWATCH_BAD_KIND);
    is_no_call(wrong + 2, 1, due, TMWATCH_BAD_REGISTER);
    is_no_call(wrong + 3, 2, due, TMWATCH_NOT_A_CALL);
    is_no_call(wrong + 4, 2, due, TMWATCH_NOT_A_CALL);
    is_no_call(wrong + 5, 1, due, TMWATCH_NOT_A_CALL);
    CHECK(tmwatch_record_next_call(&recorder, calls, COUNT, &due, &place) == TMWATCH_OK);
    for (const char *letter = "KCRWNTX"; *letter; letter++)
        is_refused(due, COUNT, *letter, TMWATCH_WRONG_ANSWER);
    is_refused(due, COUNT, 'Q', TMWATCH_BAD_KIND);
    close_one(1);
}

static void a_spent_watch_refuses(void)
{
    tmwatch_cursor cursor = TMWATCH_CURSOR_INIT;
    uint64_t place;
    open_one(3);
    call_once(&cursor, 'V', 0, 1);
    CHECK(tmwatch_record_next_call(&recorder, calls, COUNT, &cursor, &place) == TMWATCH_OK && place == 2);
    is_refused(cursor, COUNT, 'K', TMWATCH_SPENT);
    close_one(3);
}

int main(void)
{
    a_transaction_commits_and_another_aborts();
    a_wrong_value_is_recorded();
    what_does_not_fit_is_refused();
    a_spent_watch_refuses();
    return 0;
}
