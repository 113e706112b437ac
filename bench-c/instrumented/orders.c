/* The C++20 memory model by simulation, after Lidbury and Donaldson (POPL 2017) and Luo and Demsky (ASPLOS 2021). Its files are one object, so
   that tests can call static functions.

   Each place that is accessed atomically has its last stores, in modification order; memory holds the newest. A load returns a random one that
   coherence and the rules of sequential consistency allow. Each thread has a clock: how many steps of each thread happen before its next one. A
   release puts this clock into the store, and an acquire joins the store's clock to the reader's.

   Modification order is the order in which stores are made, except that a store may be put before others that its thread doesn't know, because
   two processors' stores to two places may come out in different orders. The order of sequentially consistent operations isn't chosen: an
   access after which none would be left isn't made. A load returns nothing that is stored later (but see orders/delayed.c). So each run is one
   that C++20 allows, and all of those can occur, except for such loads. */
#define _GNU_SOURCE
#include "found.h"
#include "orders.h"
#include "tmwatch_bench.h"
#include <stdlib.h>
#include <string.h>
#include <sys/auxv.h>
#include <unistd.h>
#include "orders/clocks.c"
#include "orders/simulation.c"
#include "orders/sequence.c"
#include "orders/places.c"
#include "orders/lines.c"
#include "orders/unmarked.c"
#include "orders/findings.c"
#include "orders/races.c"
#include "orders/delayed.c"
#include "orders/model.c"
