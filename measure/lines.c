/*
The least cost of the calls of tmwatch-bench.

    lines echo                    answers each call at once: 0 to a read, and success to each commit
    lines ask COUNT PROGRAM..     sends COUNT requests to a program over two pipes, and prints how many calls a second that makes
*/
#define _GNU_SOURCE
#include <stdio.h>
#include <stdlib.h>
#include <string.h>
#include <time.h>
#include <unistd.h>

/* A program that waits for its first answers as long as it likes. */
enum { FIRST = 100 };

static int echo(void)
{
    char call[100];
    while (fgets(call, sizeof call, stdin)) {
        printf("%c %s\n", call[0], call[2] == 'R' ? "V 0" : call[2] == 'W' ? "K" : call[2] == 'T' ? "C" : "A");
        fflush(stdout);
    }
    return 0;
}

static double seconds(void)
{
    struct timespec time;
    clock_gettime(CLOCK_MONOTONIC, &time);
    return (double)time.tv_sec + (double)time.tv_nsec / 1e9;
}

static int ask(long count, char **program)
{
    static const char call[] = "0 R 2\n";
    int to[2], from[2];
    char answer[100];
    double began = 0;
    if (pipe(to) != 0 || pipe(from) != 0)
        return 1;
    if (fork() == 0) {
        dup2(to[0], STDIN_FILENO);
        dup2(from[1], STDOUT_FILENO);
        close(to[1]);
        close(from[0]);
        execvp(program[0], program);
        _exit(127);
    }
    close(to[0]);
    close(from[1]);
    for (long i = -FIRST; i < count; i++) {
        if (i == 0)
            began = seconds();
        if (write(to[1], call, sizeof call - 1) < 0 || read(from[0], answer, sizeof answer) <= 0)
            return 1;
    }
    printf("%.0f\n", (double)count / (seconds() - began));
    return 0;
}

int main(int count, char **words)
{
    if (count == 2 && strcmp(words[1], "echo") == 0)
        return echo();
    return count > 3 && strcmp(words[1], "ask") == 0 ? ask(atol(words[2]), words + 3) : 2;
}
