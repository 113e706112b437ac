/* The whole run as a trace: each call before it is written to the program, each answer after it was read. */
#include "lines.h"
#include <errno.h>
#include <fcntl.h>
#include <string.h>
#include <unistd.h>

static int file = -1;

/* Writes a line by one call, so that lines of several threads are whole, and what was written is there however the run ends. */
static void write_line(const char *line, size_t length)
{
    if (write(file, line, length) != (ssize_t)length)
        fail(0, "cannot write %s", options.full_trace);
}

void open_record(void)
{
    char header[100];
    if (!options.full_trace)
        return;
    file = open(options.full_trace, O_WRONLY | O_CREAT | O_TRUNC | O_APPEND | O_CLOEXEC, 0666);
    if (file < 0)
        fail(0, "cannot write %s: %s", options.full_trace, strerror(errno));
    /* (only version 2 has adds; it names what registers hold at first) */
    int length = snprintf(header, sizeof header, "opacity-trace %d %u", options.has_add ? 2 : 1, options.registers);
    for (unsigned reg = 0; options.has_add && reg < options.registers; reg++)
        length += snprintf(header + length, sizeof header - (size_t)length, " 0");
    header[length] = '\n';
    write_line(header, (size_t)length + 1);
}

void record(unsigned thread, const char *event)
{
    char line[MOST_LINE + 4];
    if (file >= 0)
        write_line(line, (size_t)snprintf(line, sizeof line, "%u %s\n", thread, event));
}
