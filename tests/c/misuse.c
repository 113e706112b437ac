/* Each misuse that the library answers, and what stands afterwards. */
#include "check.h"

static tmwatch watch;
static tmwatch_recorder recorders[9];
static const tmwatch_result untold = {9, 9, 9, 9};

/* Opens a watch that has this many recorders, cells and places, over one register. */
static void open_small(size_t count, uint64_t cells, uint64_t limit)
{
    tmwatch_settings settings = TMWATCH_SETTINGS(1);
    settings.cells = cells;
    settings.limit = limit;
    CHECK(tmwatch_open(&watch, recorders, count, &settings) == TMWATCH_OK);
}

/* Closes the watch, and answers with what it tells. */
static tmwatch_result close_all(size_t count)
{
    tmwatch_result result = untold;
    CHECK(tmwatch_close(&watch, recorders, count, &result) == TMWATCH_OK);
    CHECK(is_empty(&watch) && are_empty(recorders, 9));
    return result;
}

static bool told_nothing(tmwatch_result result)
{
    return memcmp(&result, &untold, sizeof result) == 0;
}

static void an_empty_handle_is_answered(void)
{
    tmwatch_result result = untold;
    uint64_t number = 9;
    tmwatch_recorder *none = &recorders[0];
    CHECK(tmwatch_read(none, 0) == TMWATCH_NO_HANDLE && tmwatch_value(none, 0) == TMWATCH_NO_HANDLE);
    CHECK(tmwatch_write(none, 0, 0) == TMWATCH_NO_HANDLE && tmwatch_written(none) == TMWATCH_NO_HANDLE);
    CHECK(tmwatch_add(none, 0, 0) == TMWATCH_NO_HANDLE && tmwatch_commit(none) == TMWATCH_NO_HANDLE);
    CHECK(tmwatch_committed(none) == TMWATCH_NO_HANDLE && tmwatch_abort(none) == TMWATCH_NO_HANDLE);
    CHECK(tmwatch_aborted(none) == TMWATCH_NO_HANDLE);
    CHECK(tmwatch_room(none, 1) == TMWATCH_NO_HANDLE && tmwatch_room(none, UINT64_MAX) == TMWATCH_NO_HANDLE);
    CHECK(tmwatch_record(none, 'R', 0, 0, &number) == TMWATCH_NO_HANDLE && number == 9);
    CHECK(tmwatch_record(none, 'Q', 99, 0, &number) == TMWATCH_NO_HANDLE && number == 9);
    CHECK(tmwatch_pump(&watch, 1, &number) == TMWATCH_NO_HANDLE && number == 9);
    CHECK(tmwatch_report(&watch, &result) == TMWATCH_NO_HANDLE && told_nothing(result));
    CHECK(tmwatch_close(&watch, recorders, 2, &result) == TMWATCH_NO_HANDLE && told_nothing(result));
    tmwatch_discard(&watch);
    tmwatch_discard_recorder(none);
    CHECK(is_empty(&watch) && are_empty(recorders, 9));
}

/* Opening with these settings and this many recorders is answered so, and leaves all handles empty. */
static void is_refused(tmwatch_settings settings, size_t count, uint32_t status)
{
    CHECK(tmwatch_open(&watch, recorders, count, &settings) == status);
    CHECK(is_empty(&watch) && are_empty(recorders, 9));
}

/* A setting at a time is put right, so that each answer comes before the next. */
static void wrong_settings_are_answered_in_their_order(void)
{
    tmwatch_settings settings = {0, {0, 0, 1, 0, 0, 0, 0, 0}, 0, 0, 1, (UINT64_C(1) << 40) + 1};
    is_refused(settings, 9, TMWATCH_BAD_REGISTERS);
    settings.registers = 9;
    is_refused(settings, 9, TMWATCH_BAD_REGISTERS);
    settings.registers = 256 + 2;
    is_refused(settings, 9, TMWATCH_BAD_REGISTERS);
    settings.registers = 2;
    is_refused(settings, 9, TMWATCH_BAD_START);
    settings.registers = 3;
    is_refused(settings, 9, TMWATCH_BAD_BOUNDS);
    settings.window = 8;
    is_refused(settings, 9, TMWATCH_BAD_BOUNDS);
    settings.states = 65;
    is_refused(settings, 9, TMWATCH_BAD_BOUNDS);
    settings.states = 256 + 1;
    is_refused(settings, 9, TMWATCH_BAD_BOUNDS);
    settings.states = 64;
    settings.window = 9;
    is_refused(settings, 9, TMWATCH_BAD_BOUNDS);
    settings.window = 256 + 8;
    is_refused(settings, 9, TMWATCH_BAD_BOUNDS);
    settings.window = 8;
    is_refused(settings, 9, TMWATCH_BAD_SIZE);
    is_refused(settings, 0, TMWATCH_BAD_SIZE);
    is_refused(settings, 2, TMWATCH_BAD_SIZE);
    settings.cells = 4097;
    is_refused(settings, 2, TMWATCH_BAD_SIZE);
    settings.cells = 4096;
    is_refused(settings, 2, TMWATCH_BAD_LIMIT);
    settings.limit = 1;
    is_refused(settings, 2, TMWATCH_BAD_LIMIT);
    settings.limit = 2;
    CHECK(tmwatch_open(&watch, recorders, 2, &settings) == TMWATCH_OK);
    CHECK(tells(close_all(2), 0, TMWATCH_OPAQUE_SO_FAR, 0, 0));
}

static void a_full_handle_is_not_opened_over(void)
{
    tmwatch other = TMWATCH_EMPTY;
    tmwatch_recorder others[2] = {TMWATCH_EMPTY_RECORDER, TMWATCH_EMPTY_RECORDER};
    tmwatch_settings settings = TMWATCH_SETTINGS(0);
    open_small(2, 8, 100);
    CHECK(tmwatch_open(&watch, others, 2, &settings) == TMWATCH_HANDLE_IN_USE);
    CHECK(are_empty(others, 2));
    CHECK(tmwatch_open(&other, recorders, 2, &settings) == TMWATCH_HANDLE_IN_USE);
    CHECK(is_empty(&other));
    CHECK(tmwatch_open(&other, &recorders[1], 2, &settings) == TMWATCH_HANDLE_IN_USE);
    CHECK(is_empty(&other) && are_empty(&recorders[2], 1));
    record_dirty_read(recorders);
    CHECK(tells(close_all(2), 4, TMWATCH_VIOLATED, 4, 0));
}

static void no_such_kind_and_no_such_register_are_recorded(void)
{
    static const char with_register[] = "RWN", all[] = "RVWKNTCXA";
    uint64_t place = 9;
    open_small(1, 16, 100);
    for (uint32_t letter = 0; letter < 1024; letter++)
        if (letter == 0 || letter > 255 || !strchr(all, (int)letter))
            CHECK(tmwatch_record(&recorders[0], letter, 0, 0, &place) == TMWATCH_BAD_KIND);
    for (const char *letter = with_register; *letter; letter++) {
        CHECK(tmwatch_record(&recorders[0], (uint32_t)*letter, 1, 0, &place) == TMWATCH_BAD_REGISTER);
        CHECK(tmwatch_record(&recorders[0], (uint32_t)*letter, 256, 0, &place) == TMWATCH_BAD_REGISTER);
        CHECK(tmwatch_record(&recorders[0], (uint32_t)*letter, UINT64_MAX, 0, &place) == TMWATCH_BAD_REGISTER);
    }
    CHECK(tmwatch_read(&recorders[0], 1) == TMWATCH_BAD_REGISTER);
    CHECK(tmwatch_write(&recorders[0], 1, 0) == TMWATCH_BAD_REGISTER);
    CHECK(tmwatch_add(&recorders[0], 1, 0) == TMWATCH_BAD_REGISTER && place == 9);
    CHECK(tmwatch_record(&recorders[0], 'R', 0, 99, &place) == TMWATCH_OK && place == 0);
    CHECK(tmwatch_record(&recorders[0], 'V', 99, 0, &place) == TMWATCH_OK && place == 1);
    CHECK(tells(close_all(1), 2, TMWATCH_OPAQUE_SO_FAR, 0, 0));
}

/* Each kind is recorded by its own function as by its letter. */
static void each_kind_is_recorded(void)
{
    uint64_t place = 9;
    open_small(1, 16, 100);
    CHECK(tmwatch_write(&recorders[0], 0, 3) == TMWATCH_OK && tmwatch_written(&recorders[0]) == TMWATCH_OK);
    CHECK(tmwatch_add(&recorders[0], 0, UINT64_MAX) == TMWATCH_OK && tmwatch_value(&recorders[0], 3) == TMWATCH_OK);
    CHECK(tmwatch_commit(&recorders[0]) == TMWATCH_OK && tmwatch_committed(&recorders[0]) == TMWATCH_OK);
    CHECK(tmwatch_read(&recorders[0], 0) == TMWATCH_OK && tmwatch_value(&recorders[0], 2) == TMWATCH_OK);
    CHECK(tmwatch_abort(&recorders[0]) == TMWATCH_OK && tmwatch_aborted(&recorders[0]) == TMWATCH_OK);
    CHECK(tmwatch_record(&recorders[0], 'R', 0, 0, &place) == TMWATCH_OK && place == 10);
    CHECK(tmwatch_record(&recorders[0], 'V', 0, 3, &place) == TMWATCH_OK && place == 11);
    CHECK(tells(close_all(1), 12, TMWATCH_VIOLATED, 12, 0));
}

static void an_answer_without_its_call_is_malformed(void)
{
    tmwatch_result result = untold;
    uint64_t judged = 9;
    open_small(2, 8, 100);
    CHECK(tmwatch_read(&recorders[1], 0) == TMWATCH_OK);
    CHECK(tmwatch_committed(&recorders[0]) == TMWATCH_OK);
    CHECK(tmwatch_pump(&watch, 0, &judged) == TMWATCH_OK && judged == 0);
    CHECK(tmwatch_pump(&watch, 1, &judged) == TMWATCH_OK && judged == 1);
    CHECK(tmwatch_report(&watch, &result) == TMWATCH_OK && tells(result, 1, TMWATCH_OPAQUE_SO_FAR, 0, 0));
    CHECK(tmwatch_pump(&watch, UINT64_MAX, &judged) == TMWATCH_OK && judged == 1);
    CHECK(tmwatch_report(&watch, &result) == TMWATCH_OK && tells(result, 2, TMWATCH_MALFORMED, 2, 0));
    CHECK(tells(close_all(2), 2, TMWATCH_MALFORMED, 2, 0));
}

static void nothing_is_recorded_after_a_close(void)
{
    open_small(2, 8, 100);
    close_all(2);
    an_empty_handle_is_answered();
}

/* The watch is not closed with these handles, and all is as it was. */
static void is_missing(tmwatch_recorder *given, size_t count)
{
    tmwatch_result result = untold;
    tmwatch before;
    tmwatch_recorder all[9], others[9];
    memcpy(&before, &watch, sizeof watch);
    memcpy(all, recorders, sizeof all);
    memcpy(others, given, count * sizeof *given);
    CHECK(tmwatch_close(&watch, given, count, &result) == TMWATCH_MISSING_RECORDER && told_nothing(result));
    CHECK(memcmp(&before, &watch, sizeof watch) == 0 && memcmp(all, recorders, sizeof all) == 0);
    CHECK(memcmp(others, given, count * sizeof *given) == 0);
}

static void a_missing_recorder_is_waited_for(void)
{
    tmwatch_recorder swapped[3] = {TMWATCH_EMPTY_RECORDER, TMWATCH_EMPTY_RECORDER, TMWATCH_EMPTY_RECORDER};
    open_small(3, 8, 100);
    record_dirty_read(recorders);
    is_missing(recorders, 0);
    is_missing(recorders, 2);
    is_missing(recorders, 4);
    is_missing(&recorders[1], 3);
    /* Handles that change their places: the same bytes, and each used at one place at a time. */
    for (int i = 0; i < 3; i++)
        swapped[i] = recorders[(i + 1) % 3];
    is_missing(swapped, 3);
    CHECK(tells(close_all(3), 4, TMWATCH_VIOLATED, 4, 0));
}

static void a_discarded_recorder_is_missing(void)
{
    open_small(2, 8, 100);
    tmwatch_discard_recorder(&recorders[1]);
    CHECK(are_empty(&recorders[1], 1) && !are_empty(recorders, 1));
    is_missing(recorders, 2);
    tmwatch_discard(&watch);
    CHECK(is_empty(&watch));
    /* A recorder outlives its watch, and records into its ring until that is full. */
    CHECK(tmwatch_commit(&recorders[0]) == TMWATCH_OK);
    tmwatch_discard_recorder(&recorders[0]);
    CHECK(are_empty(recorders, 9));
}

static void a_ring_that_is_full_refuses_until_it_is_pumped(void)
{
    uint64_t judged = 9, place = 9;
    open_small(2, 2, 4);
    CHECK(tmwatch_read(&recorders[0], 0) == TMWATCH_OK);
    CHECK(tmwatch_record(&recorders[1], 'R', 0, 0, &place) == TMWATCH_FULL && place == 9);
    CHECK(tmwatch_pump(&watch, 1, &judged) == TMWATCH_OK && judged == 1);
    CHECK(tmwatch_record(&recorders[1], 'R', 0, 0, &place) == TMWATCH_OK && place == 1);
    CHECK(tmwatch_pump(&watch, 9, &judged) == TMWATCH_OK && judged == 1);
    CHECK(tmwatch_value(&recorders[0], 0) == TMWATCH_OK);
    CHECK(tmwatch_record(&recorders[1], 'V', 0, 0, &place) == TMWATCH_SPENT && place == 1);
    CHECK(tmwatch_pump(&watch, 9, &judged) == TMWATCH_OK && judged == 1);
    CHECK(tmwatch_value(&recorders[1], 0) == TMWATCH_SPENT);
    CHECK(tells(close_all(2), 3, TMWATCH_OPAQUE_SO_FAR, 0, 0));
}

/* A recorder reads register 0 and is answered, again and again: so many events, of which the first is a call, or an answer. */
static void record_reads(tmwatch_recorder *recorder, int count, bool is_call)
{
    for (int i = 0; i < count; i++, is_call = !is_call)
        CHECK((is_call ? tmwatch_read(recorder, 0) : tmwatch_value(recorder, 0)) == TMWATCH_OK);
}

static void room_for_several_events_is_told(void)
{
    uint64_t judged = 9;
    open_small(2, 8, 12);
    CHECK(tmwatch_room(&recorders[0], 0) == TMWATCH_OK && tmwatch_room(&recorders[0], 7) == TMWATCH_OK);
    CHECK(tmwatch_room(&recorders[0], 8) == TMWATCH_FULL && tmwatch_room(&recorders[0], 11) == TMWATCH_FULL);
    CHECK(tmwatch_room(&recorders[0], 12) == TMWATCH_SPENT && tmwatch_room(&recorders[0], UINT64_MAX) == TMWATCH_SPENT);
    record_reads(&recorders[0], 3, true);
    CHECK(tmwatch_room(&recorders[0], 4) == TMWATCH_OK && tmwatch_room(&recorders[0], 5) == TMWATCH_FULL);
    CHECK(tmwatch_room(&recorders[1], 4) == TMWATCH_OK && tmwatch_room(&recorders[1], 5) == TMWATCH_FULL);
    CHECK(tmwatch_pump(&watch, 9, &judged) == TMWATCH_OK && judged == 3);
    CHECK(tmwatch_room(&recorders[0], 7) == TMWATCH_OK && tmwatch_room(&recorders[0], 8) == TMWATCH_FULL);
    CHECK(tmwatch_room(&recorders[0], 9) == TMWATCH_SPENT);
    record_reads(&recorders[0], 7, false);
    CHECK(tmwatch_room(&recorders[0], 1) == TMWATCH_FULL && tmwatch_read(&recorders[0], 0) == TMWATCH_FULL);
    CHECK(tells(close_all(2), 10, TMWATCH_OPAQUE_SO_FAR, 0, 0));
}

/* A recorder writes 1 to register 0 and commits. */
static void record_write(tmwatch_recorder *recorder, uint64_t value)
{
    CHECK(tmwatch_write(recorder, 0, value) == TMWATCH_OK && tmwatch_written(recorder) == TMWATCH_OK);
    CHECK(tmwatch_commit(recorder) == TMWATCH_OK);
}

static void what_passes_a_bound_is_undecided(void)
{
    tmwatch_settings settings = TMWATCH_SETTINGS(1);
    settings.window = 1;
    CHECK(tmwatch_open(&watch, recorders, 2, &settings) == TMWATCH_OK);
    record_write(&recorders[0], 1);
    CHECK(tmwatch_read(&recorders[1], 0) == TMWATCH_OK);
    CHECK(tells(close_all(2), 4, TMWATCH_UNDECIDED, 4, TMWATCH_TRANSACTIONS));

    settings.window = 8;
    settings.states = 1;
    CHECK(tmwatch_open(&watch, recorders, 2, &settings) == TMWATCH_OK);
    record_write(&recorders[0], 1);
    record_write(&recorders[1], 2);
    CHECK(tmwatch_committed(&recorders[0]) == TMWATCH_OK && tmwatch_committed(&recorders[1]) == TMWATCH_OK);
    CHECK(tells(close_all(2), 8, TMWATCH_UNDECIDED, 8, TMWATCH_STATES));
}

/* A recorder is discarded amid a transaction, so that all of the other's begin in the same window: the ninth transaction is one too many. */
static void a_transaction_that_was_left_keeps_its_window_open(void)
{
    tmwatch_result result = untold;
    uint64_t judged = 9;
    open_small(2, 32, 1000);
    CHECK(tmwatch_read(&recorders[0], 0) == TMWATCH_OK);
    tmwatch_discard_recorder(&recorders[0]);
    for (int i = 0; i < 7; i++)
        CHECK(tmwatch_commit(&recorders[1]) == TMWATCH_OK && tmwatch_committed(&recorders[1]) == TMWATCH_OK);
    CHECK(tmwatch_commit(&recorders[1]) == TMWATCH_OK);
    CHECK(tmwatch_pump(&watch, 100, &judged) == TMWATCH_OK && judged == 16);
    CHECK(tmwatch_report(&watch, &result) == TMWATCH_OK && tells(result, 16, TMWATCH_UNDECIDED, 16, TMWATCH_TRANSACTIONS));
    tmwatch_discard(&watch);
    tmwatch_discard_recorder(&recorders[1]);
    CHECK(is_empty(&watch) && are_empty(recorders, 9));
}

static void registers_begin_as_the_settings_say(void)
{
    for (uint64_t value = 6; value < 8; value++) {
        tmwatch_settings settings = TMWATCH_SETTINGS(8);
        settings.start[7] = 7;
        CHECK(tmwatch_open(&watch, recorders, 1, &settings) == TMWATCH_OK);
        CHECK(tmwatch_read(&recorders[0], 7) == TMWATCH_OK && tmwatch_value(&recorders[0], value) == TMWATCH_OK);
        CHECK(tells(close_all(1), 2, value == 7 ? TMWATCH_OPAQUE_SO_FAR : TMWATCH_VIOLATED, value == 7 ? 0 : 2, 0));
    }
}

int main(void)
{
    an_empty_handle_is_answered();
    wrong_settings_are_answered_in_their_order();
    a_full_handle_is_not_opened_over();
    no_such_kind_and_no_such_register_are_recorded();
    each_kind_is_recorded();
    an_answer_without_its_call_is_malformed();
    nothing_is_recorded_after_a_close();
    a_missing_recorder_is_waited_for();
    a_discarded_recorder_is_missing();
    a_ring_that_is_full_refuses_until_it_is_pumped();
    room_for_several_events_is_told();
    what_passes_a_bound_is_undecided();
    a_transaction_that_was_left_keeps_its_window_open();
    registers_begin_as_the_settings_say();
    return 0;
}
