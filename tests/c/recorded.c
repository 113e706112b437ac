/*
Records each kind of event by include/tmwatch/recorder.h, until that is full, and writes them; then one more event, and writes it. With a
word, one more than there is room for.
*/
#define ROOM 9
#include "tmwatch/recorder.h"

int main(int count, char **words)
{
    (void)words;
    write_header(8);
    record(7, 'R', 6, 0);
    record(7, 'V', 7, UINT64_MAX);
    record(0, 'R', 0, 5);
    record(1, 'W', 6, UINT64_C(1) << 63);
    record(0, 'A', 1, 1);
    record(1, 'K', 6, 2);
    record(1, 'T', 0, 3);
    record(7, 'X', 0, 4);
    record(1, 'C', 0, 5);
    if (count > 1)
        record(7, 'A', 0, 0);
    write_events();
    record(7, 'A', 0, 0);
    write_events();
    write_events();
    return 0;
}
