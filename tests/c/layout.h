/* The layouts by which the library and a program in C meet, on a machine of 64 bits. In C++ `ASSERT` is another word. */
#include "tmwatch.h"

ASSERT(sizeof(tmwatch) == 16 && offsetof(tmwatch, at) == 0 && offsetof(tmwatch, full) == 8, "a watch's handle");
ASSERT(sizeof(tmwatch_recorder) == 16 && offsetof(tmwatch_recorder, at) == 0, "a recorder's handle");
ASSERT(offsetof(tmwatch_recorder, full) == 8 && offsetof(tmwatch_recorder, number) == 9, "a recorder's handle");
ASSERT(sizeof(tmwatch_settings) == 104 && offsetof(tmwatch_settings, registers) == 0, "the settings");
ASSERT(offsetof(tmwatch_settings, start) == 8 && offsetof(tmwatch_settings, window) == 72, "the settings");
ASSERT(offsetof(tmwatch_settings, states) == 80 && offsetof(tmwatch_settings, cells) == 88, "the settings");
ASSERT(offsetof(tmwatch_settings, limit) == 96, "the settings");
ASSERT(sizeof(tmwatch_result) == 24 && offsetof(tmwatch_result, events) == 0 && offsetof(tmwatch_result, at) == 8, "what is told");
ASSERT(offsetof(tmwatch_result, verdict) == 16 && offsetof(tmwatch_result, why) == 20, "what is told");
ASSERT(sizeof(tmwatch_counts) == 72 && offsetof(tmwatch_counts, aborted) == 0 && offsetof(tmwatch_counts, committed) == 8, "the counts");
ASSERT(offsetof(tmwatch_counts, cuts) == 16 && offsetof(tmwatch_counts, live) == 24, "the counts");
ASSERT(offsetof(tmwatch_counts, concurrent) == 32 && offsetof(tmwatch_counts, transactions) == 40, "the counts");
ASSERT(offsetof(tmwatch_counts, forced_aborts) == 48 && offsetof(tmwatch_counts, max_window) == 56, "the counts");
ASSERT(offsetof(tmwatch_counts, none_overlapped) == 64, "the counts");
ASSERT(sizeof(tmwatch_call) == 24 && offsetof(tmwatch_call, letter) == 0, "a call");
ASSERT(offsetof(tmwatch_call, register_number) == 8 && offsetof(tmwatch_call, value) == 16, "a call");
ASSERT(sizeof(tmwatch_cursor) == 16 && offsetof(tmwatch_cursor, place) == 0 && offsetof(tmwatch_cursor, phase) == 8, "a turn");
ASSERT(sizeof(bool) == 1 && sizeof(size_t) == 8 && sizeof(void *) == 8, "the machine");
