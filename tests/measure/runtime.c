/* What a measured program has besides. It notes the edges that it reaches in REACHED/NAME.edges, a byte for each, which all runs share, and
 * in REACHED/NAME.places where each edge is. Of its mutants the variable MUTANT, as NAME:NUMBER, switches one on, and in the file that the
 * variable SEEN names with .NAME after it there is a byte for each that was reached. The calls of the system are `syscall`, so that a test
 * which counts requests sees those of the program. */
#include <fcntl.h>
#include <stdint.h>
#include <stdio.h>
#include <stdlib.h>
#include <string.h>
#include <sys/mman.h>
#include <sys/syscall.h>
#include <unistd.h>
extern const char __ehdr_start[];

/* the bytes of a file, in memory that all that open it share; nothing if it cannot be opened */
static unsigned char *shared(const char *path, long size)
{
    long file = syscall(SYS_open, path, O_RDWR | O_CREAT | O_CLOEXEC, 0666);
    if (file < 0) return NULL;
    syscall(SYS_ftruncate, file, size);
    long at = syscall(SYS_mmap, NULL, size, PROT_READ | PROT_WRITE, MAP_SHARED, file, 0);
    syscall(SYS_close, file);
    return at == -1 ? NULL : (unsigned char *)at;
}

static unsigned char *edges, *seen;
static uint32_t count, mutant;

void __sanitizer_cov_trace_pc_guard_init(uint32_t *begin, uint32_t *end)
{
    if (begin == end || *begin) return;
    while (begin < end) *begin++ = ++count;
    edges = shared(REACHED "/" NAME ".edges", (long)count + 1);
}

void __sanitizer_cov_trace_pc_guard(uint32_t *guard)
{
    if (*guard && edges) edges[*guard] = 1;
    *guard = 0;
}

/* where the program begins in memory, and then each edge, with a word of flags after it */
void __sanitizer_cov_pcs_init(const uintptr_t *begin, const uintptr_t *end)
{
    long file = syscall(SYS_open, REACHED "/" NAME ".places", O_WRONLY | O_CREAT | O_EXCL | O_CLOEXEC, 0666);
    uintptr_t start = (uintptr_t)__ehdr_start;
    if (file < 0) return;
    syscall(SYS_write, file, &start, sizeof start);
    syscall(SYS_write, file, begin, (const char *)end - (const char *)begin);
    syscall(SYS_close, file);
}

__attribute__((constructor)) static void begin(void)
{
    static char own[4200];
    const char *chosen = getenv("MUTANT"), *path = getenv("SEEN");
    if (chosen && !strncmp(chosen, NAME ":", sizeof NAME)) mutant = (uint32_t)atoi(chosen + sizeof NAME);
    if (path && snprintf(own, sizeof own, "%s." NAME, path) < (int)sizeof own) seen = shared(own, MOST_MUTANTS);
}

_Bool v7_mutant(uint32_t number)
{
    if (seen) seen[number] = 1;
    return number == mutant;
}

/* in place of a call that is dropped */
void v7_nothing(void) {}
