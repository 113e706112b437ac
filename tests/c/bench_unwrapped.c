/*
Prints which function of locks the bench sees that the linker has not wrapped, or none. -DNAMED: how the program names one: 1 by a call, 2 by a
pointer, 4 by the call of one that is never wrapped; or their sum.
*/
#include <pthread.h>
#include <stdio.h>

const char *tmwatch_step_unwrapped(void);

int main(void)
{
    pthread_mutex_t mutex = PTHREAD_MUTEX_INITIALIZER;
    int (*volatile lock)(pthread_mutex_t *) = NAMED & 2 ? pthread_mutex_lock : NULL;
    if (NAMED & 1)
        pthread_mutex_lock(&mutex);
    if (NAMED & 4)
        pthread_mutex_destroy(&mutex);
    const char *name = tmwatch_step_unwrapped();
    puts(name ? name : "none");
    return NAMED & 2 && !lock;
}
