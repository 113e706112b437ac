/* In which program or library an address lies. */
#include <link.h>
#include <stdbool.h>
#include <stddef.h>
#include <stdint.h>

/* An address, and then where its program or library has it, as the linker numbers it, and the library's name. */
struct found {
    uintptr_t at;
    const char *name;
    bool is_found;
};

static int find_library(struct dl_phdr_info *library, size_t size __attribute__((unused)), void *argument)
{
    struct found *found = argument;
    for (unsigned i = 0; i < library->dlpi_phnum && !found->is_found; i++) {
        uintptr_t from = library->dlpi_addr + library->dlpi_phdr[i].p_vaddr;
        found->is_found = library->dlpi_phdr[i].p_type == PT_LOAD && found->at - from < library->dlpi_phdr[i].p_memsz;
    }
    if (found->is_found)
        *found = (struct found){found->at - library->dlpi_addr, library->dlpi_name, true};
    return found->is_found;
}
