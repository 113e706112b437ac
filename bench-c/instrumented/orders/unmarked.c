/* Synchronization that the compiler hasn't marked: locked instructions, fences, and the C library's locks of large atomic objects, in the memory's
   own functions as objdump prints them, if it is installed. (A part of another instruction may have the same bytes.)

   The memory's own are the functions that the bench calls, those that call a mark, and those that these name. The search ends at a name of the
   bench, of C++, of an allocator, or a reserved one, because such code has many of these instructions. In a static program, which contains the C
   library, no names are followed. Rust isn't searched, because its library leaves its locks in the programs that use it. */

enum { MOST_OWN = 8, HEX = 18 /* an address and a blank */ };

/* Prints the name of such a function, or nothing. The arguments are a file, addresses of its functions, and whether names are followed. */
static const char search[] =
    "objdump -d --no-show-raw-insn \"$1\" | grep '<\\|lock \\|mfence\\|xchg ' | LC_ALL=C awk -v own=\"$2\" -v follows=\"$3\" '"
    "/^[0-9a-f]+ <.*>:$/ { f = $1; sub(/^0+/, \"\", f); name[f] = substr($2, 2, length($2) - 3) }"
    "/[\\t ](lock |mfence|xchg .*[(])| <__atomic_/ { locks[f] }"
    "/ <__tsan_/ && !(f in marked) { marked[f]; own = own f \" \" }"
    "match($0, /[0-9a-f]+ <[^+]*$/) { split(substr($0, RSTART), to); named[f] = named[f] to[1] \" \" }"
    "END { for (n = split(own, todo); n > 0;) {"
    "    f = todo[n--];"
    "    if (f in seen || name[f] ~ /^(tmwatch_|__|_[A-Y]|_ZN?K?St|_ZN[0-9]+__|_ZN.*17h[0-9a-f]+E|.*alloc$|free$)/) continue;"
    "    if (f in locks) { print name[f]; exit }"
    "    seen[f];"
    "    for (i = follows ? split(named[f], to) : 0; i > 0; i--) todo[++n] = to[i] } }'";

const char *tmwatch_orders_unmarked(const tmwatch_memory *m)
{
    static _Atomic(const char *) known;
    const uintptr_t all[] = {(uintptr_t)m->begin,  (uintptr_t)m->read,  (uintptr_t)m->write, (uintptr_t)m->add,
                             (uintptr_t)m->commit, (uintptr_t)m->abort, (uintptr_t)m->run};
    struct found it = {all[1], "", false};
    char own[MOST_OWN * HEX] = "'", *name = NULL;
    size_t size = 0, used = 1;
    if (known)
        return known[0] ? known : NULL;
    dl_iterate_phdr(find_library, &it);
    for (unsigned i = 0; i < sizeof all / sizeof all[0]; i++)
        used += (size_t)snprintf(own + used, sizeof own - used, "%llx ", (unsigned long long)(all[i] - all[1] + it.at));
    snprintf(own + used, sizeof own - used, "' %s", getauxval(AT_BASE) ? "1" : "");
    FILE *printed = start_on_file(&it, own, search);
    bool is_found = printed && read_line(printed, &name, &size);
    if (printed)
        pclose(printed);
    if (!is_found)
        free(name);
    known = is_found ? name : "";
    return is_found ? name : NULL;
}
