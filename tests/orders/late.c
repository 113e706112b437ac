/*
What bench-c/instrumented/orders.c tells while a thread still makes accesses, as one that is stuck may. -fsanitize=thread shows whether that is
read as it may be.
*/
#define draw_below(draws, below) ((void)(draws), (void)(below), 0u) /* of those that are older than the newest, the oldest */
#include "../../bench-c/instrumented/orders.c"
#include "../c/check.h"
#include <pthread.h>

enum { TOLD = 10, MOST_TEXT = 4096, FEW = 64, MOMENT = 1000 /* microseconds: of what is kept nothing is written again */ };
static tmwatch_simulation *orders;
static atomic_uint_least64_t events;
static _Atomic uint64_t word;
static uint64_t plain;
static atomic_bool is_told; /* (relaxed, so that it orders nothing) */

/* A stale load of thread 1 in each turn; and after a FEW a race, and a store that isn't marked. */
static void *go_on(void *unused)
{
    for (uint64_t turn = 1; !atomic_load_explicit(&is_told, memory_order_relaxed); turn++) {
        tmwatch_access store = {orders, 0, &store, &word, sizeof word, RELAXED}, load = {orders, 1, &load, &word, sizeof word, RELAXED};
        orders->stale = turn % 2 == 0 ? ODDS : 0;
        if (tmwatch_orders_store(&store, turn))
            atomic_store_explicit(&word, turn, memory_order_relaxed);
        tmwatch_orders_load(&load);
        if (turn < FEW)
            continue;
        store.at = load.at = &plain;
        tmwatch_orders_plain(&store, sizeof plain, true, true);
        tmwatch_orders_plain(&load, sizeof plain, true, true);
        atomic_store_explicit(&word, 0, memory_order_relaxed);
        usleep(MOMENT);
    }
    return unused;
}

int main(void)
{
    pthread_t thread;
    static char text[MOST_TEXT], race[MOST_TEXT];
    unsigned told = 0;
    uint64_t kinds = 0;
    orders = tmwatch_orders_new(1, &events, NULL);
    CHECK(orders);
    tmwatch_orders_round(orders);
    CHECK(pthread_create(&thread, NULL, go_on, NULL) == 0);
    while (told < TOLD || !race[0] || kinds != 1u << UNMARKED_STORE || !text[0]) {
        FILE *file = fmemopen(text, sizeof text, "w");
        CHECK(file);
        tmwatch_orders_tell(orders, file, 0, UINT64_MAX);
        kinds = tmwatch_orders_tell_untracked(orders, file, true);
        tmwatch_orders_tell_race(orders, race, sizeof race);
        fclose(file);
        told++;
    }
    atomic_store_explicit(&is_told, true, memory_order_relaxed);
    pthread_join(thread, NULL);
    CHECK(strstr(text, "stale load: thread 1") && strstr(text, "stores to what is loaded"));
    free(orders);
    return 0;
}
