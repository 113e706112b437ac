/*
Linked into the bench by lines with --wrap=open, --wrap=fopen and --wrap=fork. Its list of its own children is the file LISTED, if the environment
has one, and no process can be started after FORKS others.
*/
#include <errno.h>
#include <stdio.h>
#include <stdlib.h>
#include <string.h>
#include <sys/types.h>

int __real_open(const char *name, int flags, ...);
FILE *__real_fopen(const char *name, const char *how);
pid_t __real_fork(void);
int __wrap_open(const char *name, int flags, ...);
FILE *__wrap_fopen(const char *name, const char *how);
pid_t __wrap_fork(void);

static const char *listed_for(const char *name)
{
    const char *listed = getenv("LISTED");
    return listed && strncmp(name, "/proc/self/task/", 16) == 0 && strstr(name, "/children") ? listed : name;
}

int __wrap_open(const char *name, int flags, ...)
{
    return __real_open(listed_for(name), flags, 0666);
}

FILE *__wrap_fopen(const char *name, const char *how)
{
    return __real_fopen(listed_for(name), how);
}

pid_t __wrap_fork(void)
{
    static int count;
    const char *most = getenv("FORKS");
    errno = EAGAIN;
    return most && count++ >= atoi(most) ? -1 : __real_fork();
}
