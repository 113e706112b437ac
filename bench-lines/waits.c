/* Calls that wait for another client. With the schedule `steps` one thread runs at a time, so a store would never answer a call that waits for
   another thread's transaction. A call is taken to wait if it takes longer than answers do, and neither a program nor anything that it or the
   setup has started computes. Of a server elsewhere only the time is known. If a slow call is taken to wait, the run remains correct, but may not
   be reproducible. */
#include "lines.h"
#include <dirent.h>
#include <string.h>
#include <unistd.h>

/* A call takes no longer than LEAST and TIMES what answers have taken, at most MOST; and then until QUIET_LOOKS find that nothing computes, or
   LONGEST. What an answer has taken is forgotten by and by, by the part FORGOTTEN a call. */
#define LEAST MILLISECOND
#define MOST (100 * MILLISECOND)
#define LONGEST SECOND
#define EACH_LOOK (MILLISECOND / 2)
#define LATER_LOOK (50 * MILLISECOND) /* of a call that takes long */
enum { TIMES = 3, QUIET_LOOKS = 3, FORGOTTEN = 64, MOST_FILES = 64 /* of which one may be a socket */ };

/* What answers have taken of late. */
static atomic_uint_least64_t slow = 5 * MILLISECOND;

/* Whether this thread of a process has a processor, or is to get one, or waits for a disk. */
static bool has_processor(const char *task)
{
    char name[100], line[400];
    snprintf(name, sizeof name, "%s/stat", task);
    FILE *file = fopen(name, "r");
    const char *after = file && fgets(line, sizeof line, file) ? strrchr(line, ')') : NULL;
    if (file)
        fclose(file);
    return after && after[1] == ' ' && (after[2] == 'R' || after[2] == 'D');
}

/* Whether this thread of a process has a socket open, at whose other end may be a server. */
static bool has_socket(const char *task)
{
    char name[120], is[] = "socket:";
    bool is_found = false;
    for (int file = STDERR_FILENO + 1; file < MOST_FILES && !is_found; file++) {
        snprintf(name, sizeof name, "%s/fd/%d", task, file);
        is_found = readlink(name, is, sizeof is - 1) == sizeof is - 1 && strcmp(is, "socket:") == 0;
    }
    return is_found;
}

/* Whether a process has such a thread, or one that has come from it. This one and its parent don't count, nor other jobs. */
static bool is_any(pid_t pid, bool (*of)(const char *task))
{
    char name[40], task[80], children[100];
    bool counts = pid != getpid() && pid != getppid(), is_found = false;
    if (pid == getppid() && pid != shared->supervisor)
        return is_any(getpid(), of);
    snprintf(name, sizeof name, "/proc/%d/task", (int)pid);
    DIR *folder = opendir(name);
    for (struct dirent *entry; folder && !is_found && (entry = readdir(folder));) {
        snprintf(task, sizeof task, "%s/%.20s", name, entry->d_name);
        snprintf(children, sizeof children, "%s/children", task);
        is_found = counts && entry->d_name[0] != '.' && of(task);
        FILE *file = fopen(children, "r");
        for (int child; file && !is_found && fscanf(file, "%d", &child) == 1;)
            is_found = is_any(child, of);
        if (file)
            fclose(file);
    }
    if (folder)
        closedir(folder);
    return is_found;
}

/* Whether anything on this machine has a processor besides this thread, or waits for a disk. */
static bool is_machine_busy(void)
{
    char line[100];
    unsigned running = 0, blocked = 0;
    FILE *file = fopen("/proc/stat", "r");
    while (file && fgets(line, sizeof line, file))
        if (sscanf(line, "procs_running %u", &running) != 1)
            sscanf(line, "procs_blocked %u", &blocked);
    if (file)
        fclose(file);
    return running > 1 || blocked > 0;
}

/* Whether a program computes or waits for a disk, at the last look, or a server elsewhere may: which process that is can't be known. */
bool tmwatch_bench_computes(void)
{
    static uint64_t looked;
    static bool is_found;
    if (now() - looked >= LATER_LOOK) {
        is_found = is_any(shared->supervisor, has_processor) || (is_machine_busy() && is_any(shared->supervisor, has_socket));
        looked = now();
    }
    return is_found;
}

/* Whether the answer comes before the call is taken for one that waits. */
static bool is_answered_soon(unsigned thread, uint64_t began)
{
    uint64_t longest = LEAST + TIMES * slow < MOST ? LEAST + TIMES * slow : MOST;
    bool is_there = is_answered(thread, began + (options.blocked_after > 0 ? options.blocked_after * MILLISECOND : longest));
    for (int quiet = 0; !is_there && options.blocked_after == 0 && quiet < QUIET_LOOKS && now() - began < LONGEST;
         quiet = is_any(shared->supervisor, has_processor) ? 0 : quiet + 1)
        is_there = is_answered(thread, now() + EACH_LOOK);
    return is_there;
}

static bool has_call_beside(unsigned thread)
{
    bool is_pending = false;
    for (unsigned i = 0; i < options.threads && !is_pending; i++)
        if (i != thread)
            call_of(i, &is_pending);
    return is_pending;
}

void await_answer(unsigned thread)
{
    bool is_beside_others = tmwatch_external_call();
    if (!is_beside_others && !shared->have_met)
        shared->have_met = has_call_beside(thread);
    uint64_t began = now();
    if (is_beside_others && !is_answered_soon(thread, began))
        tmwatch_external_blocked();
    else if (is_answered(thread, FOREVER)) {
        uint64_t took = now() - began, before = slow - slow / FORGOTTEN;
        slow = took > before ? took : before;
    }
    is_answered(thread, FOREVER);
}
