/* Each call that gives a block back by itself (bench-c/instrumented/block_frees.c): before the block is gone, what the thread has stored is out,
   and the orders of C++20 forget its bytes, so far as their number is known; and then the call is made as it was. */
#include "../../bench-c/instrumented/block_frees.c"
#include "check.h"

enum { SIZE = 100, ALIGNMENT = 16 };

static bool has_orders;
static int drained, made;
static const volatile void *forgotten, *given;
static size_t forgotten_size, given_size, given_alignment;

tmwatch_simulation *tmwatch_step_orders(void)
{
    return has_orders ? (tmwatch_simulation *)&has_orders : NULL;
}

void tmwatch_step_drain(void)
{
    CHECK(made == 0 && !forgotten);
    drained++;
}

void tmwatch_orders_forget(tmwatch_simulation *orders, const volatile void *at, size_t bytes)
{
    CHECK(orders && made == 0);
    forgotten = at;
    forgotten_size = bytes;
}

static void note(const void *block, size_t size, size_t alignment)
{
    made++;
    given = block;
    given_size = size;
    given_alignment = alignment;
}

/* What the program would call. */
void __real_free(void *block)
{
    note(block, 0, 0);
}
void *__real_realloc(void *block, size_t size)
{
    note(block, size, 0);
    return &given;
}
int __real_munmap(void *block, size_t size)
{
    note(block, size, 0);
    return ALIGNMENT;
}
#define REAL(name)                                                                   \
    void __real_##name(void *block) { note(block, 0, 0); }                           \
    void __real_##name##m(void *block, size_t size) { note(block, size, 0); }        \
    void __real_##name##St11align_val_t(void *block, size_t alignment)               \
    {                                                                                \
        note(block, 0, alignment);                                                   \
    }                                                                                \
    void __real_##name##mSt11align_val_t(void *block, size_t size, size_t alignment) \
    {                                                                                \
        note(block, size, alignment);                                                \
    }
REAL(_ZdlPv)
REAL(_ZdaPv)

/* Whether a call was made so, and so many bytes were forgotten before. */
static bool was(const void *block, size_t size, size_t alignment, size_t bytes)
{
    bool is_so = made == 1 && drained == 1 && given == block && given_size == size && given_alignment == alignment &&
                 forgotten == (has_orders ? block : NULL) && forgotten_size == (has_orders ? bytes : 0);
    made = drained = 0;
    forgotten = NULL;
    forgotten_size = 0;
    return is_so;
}

#define CHECK_DELETES(name)                                                         \
    do {                                                                            \
        __wrap_##name(block);                                                       \
        CHECK(was(block, 0, 0, 0));                                                 \
        __wrap_##name##m(block, SIZE);                                              \
        CHECK(was(block, SIZE, 0, SIZE));                                           \
        __wrap_##name##St11align_val_t(block, ALIGNMENT);                           \
        CHECK(was(block, 0, ALIGNMENT, 0));                                         \
        __wrap_##name##mSt11align_val_t(block, SIZE, ALIGNMENT);                    \
        CHECK(was(block, SIZE, ALIGNMENT, SIZE));                                   \
    } while (0)

int main(void)
{
    void *block = malloc(SIZE);
    size_t usable = malloc_usable_size(block);
    for (int i = 0; i < 2; i++, has_orders = true) {
        __wrap_free(block);
        CHECK(was(block, 0, 0, usable));
        CHECK(__wrap_realloc(block, 2 * SIZE) == &given && was(block, 2 * SIZE, 0, usable));
        CHECK(__wrap_munmap(block, SIZE) == ALIGNMENT && was(block, SIZE, 0, SIZE));
        CHECK_DELETES(_ZdlPv);
        CHECK_DELETES(_ZdaPv);
    }
    /* (this program's own operators above may have blocks that are none of malloc) */
    CHECK(size_of(block, __real__ZdlPv) == 0 && size_of(block, free) == usable);
    CHECK(tmwatch_step_sees_free());
    free(block);
    return 0;
}
