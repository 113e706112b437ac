/* Source lines of addresses, as addr2line prints them, if it is installed. */

/* Starts a shell command whose arguments are the file of an address and these. Returns its output, or null. */
static FILE *start_on_file(const struct found *it, const char *arguments, const char *command)
{
    char program[32], *line = NULL;
    snprintf(program, sizeof program, "/proc/%d/exe", (int)getpid());
    const char *file = it->name[0] ? it->name : program;
    /* (a quote would end the name) */
    if (strchr(file, '\'') || asprintf(&line, "set -- '%s' %s; exec 2>/dev/null; %s", file, arguments, command) < 0)
        return NULL;
    FILE *printed = popen(line, "re");
    free(line);
    return printed;
}

/* Reads a line without its end, and without what addr2line says of parts of a line: whether there is one. */
static bool read_line(FILE *file, char **line, size_t *size)
{
    if (getline(line, size, file) < 0)
        return false;
    (*line)[strcspn(*line, "\n")] = '\0';
    char *part = strstr(*line, " (discriminator ");
    if (part)
        *part = '\0';
    return true;
}

/* Prints an address as function and line, if these are known. Lines of the libraries of C++ and Rust, or tmwatch::sync, pass accesses on. */
static void print_place(FILE *to, const void *address)
{
    struct found it = {(uintptr_t)address - 1, "", false};
    char place[32], *function = NULL, *line = NULL;
    size_t sizes[2] = {0, 0};
    if (!address || !dl_iterate_phdr(find_library, &it)) {
        fputs("a place that is not known", to);
        return;
    }
    snprintf(place, sizeof place, "0x%llx", (unsigned long long)it.at);
    FILE *printed = start_on_file(&it, place, "addr2line -Cife \"$@\"");
    bool is_passed_on = printed != NULL, is_known = false;
    while (is_passed_on && read_line(printed, &function, &sizes[0]) && (is_known |= read_line(printed, &line, &sizes[1])))
        is_passed_on = strstr(line, "/include/c++/") || strstr(line, "/src/sync/atomic.rs:");
    if (printed)
        pclose(printed);
    const char *folder = is_known ? strrchr(line, '/') : NULL;
    if (!is_known || line[0] == '?')
        fputs(place, to);
    else
        fprintf(to, "%s (%s)", folder ? folder + 1 : line, function);
    free(function);
    free(line);
}
