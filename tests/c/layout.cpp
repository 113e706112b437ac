// The header as C++17, from which the library is called.
#define ASSERT static_assert
#include "layout.h"
#include "tmwatch_permits.h"

int main()
{
    tmwatch watch = TMWATCH_EMPTY;
    tmwatch_recorder recorders[2] = {TMWATCH_EMPTY_RECORDER, TMWATCH_EMPTY_RECORDER};
    tmwatch_settings settings = TMWATCH_SETTINGS(1);
    tmwatch_result result = {};
    tmwatch_permits permits = TMWATCH_ALL_FREE;
    tmwatch_permits_take(&permits);
    if (tmwatch_open(&watch, recorders, 2, &settings) != TMWATCH_OK)
        return 1;
    if (tmwatch_add(&recorders[1], 0, 5) != TMWATCH_OK || tmwatch_value(&recorders[1], 0) != TMWATCH_OK)
        return 1;
    if (tmwatch_close(&watch, recorders, 2, &result) != TMWATCH_OK)
        return 1;
    tmwatch_permits_give(&permits);
    return result.events == 2 && result.verdict == TMWATCH_OPAQUE_SO_FAR ? 0 : 1;
}
