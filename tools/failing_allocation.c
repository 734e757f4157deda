/* Makes one allocation of the program fail, and says so on standard error: preloaded by tools/check-program.
   FAILING_ALLOCATION is its number, from 1, of the calls that the program itself makes; those of the C library do not count. */
#define _GNU_SOURCE
#include <link.h>
#include <stdlib.h>
#include <string.h>
#include <unistd.h>

static char *program_from, *program_to;

/* The first object is the program. */
static int note_program(struct dl_phdr_info *object, size_t size, void *unused) {
    (void)size, (void)unused;
    for (int i = 0; i < object->dlpi_phnum; i++) {
        const ElfW(Phdr) *part = &object->dlpi_phdr[i];
        char *from = (char *)object->dlpi_addr + part->p_vaddr;
        if (part->p_type != PT_LOAD) continue;
        if (!program_from || from < program_from) program_from = from;
        if (from + part->p_memsz > program_to) program_to = from + part->p_memsz;
    }
    return 1;
}

static int fails(void *caller) {
    static long number, wanted = -1;
    if (wanted < 0) {
        const char *said = getenv("FAILING_ALLOCATION");
        wanted = said ? atol(said) : 0;
        dl_iterate_phdr(note_program, 0);
    }
    if ((char *)caller < program_from || (char *)caller >= program_to) return 0;
    if (++number != wanted) return 0;
    const char *line = "this allocation fails\n";
    (void)!write(2, line, strlen(line));
    return 1;
}

extern void *__libc_malloc(size_t size);
extern void *__libc_realloc(void *old, size_t size);

void *malloc(size_t size) {
    return fails(__builtin_return_address(0)) ? 0 : __libc_malloc(size);
}

void *realloc(void *old, size_t size) {
    return fails(__builtin_return_address(0)) ? 0 : __libc_realloc(old, size);
}
