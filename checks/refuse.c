/* Takes the place of the GNU C library's requests for memory in a program that it is preloaded into: counts them, and refuses some. The
 * environment's REFUSE_NOTES names the file that says which, and that holds how many came, also where the program is ended by a signal. */
#define _GNU_SOURCE
#include <errno.h>
#include <fcntl.h>
#include <stdatomic.h>
#include <stddef.h>
#include <stdint.h>
#include <stdlib.h>
#include <sys/mman.h>
#include <unistd.h>

void *__libc_malloc(size_t);
void *__libc_calloc(size_t, size_t);
void *__libc_realloc(void *, size_t);
void *__libc_memalign(size_t, size_t);

/* Requests are numbered from 1, in the order in which they come from all threads. */
struct notes {
    uint64_t first, last;
    _Atomic uint64_t requests, refused;
};

static struct notes *notes;

__attribute__((constructor)) static void open_notes(void) {
    const char *path = getenv("REFUSE_NOTES");
    int file = path ? open(path, O_RDWR) : -1;
    void *mapped = mmap(NULL, sizeof *notes, PROT_READ | PROT_WRITE, MAP_SHARED, file, 0);
    if (mapped == MAP_FAILED) _exit(125);
    close(file);
    notes = mapped;
}

/* What the loader asks for before any constructor ran is no request of the program. */
static int is_refused(void) {
    uint64_t request = notes ? atomic_fetch_add(&notes->requests, 1) + 1 : 0;
    if (!notes || request < notes->first || request > notes->last) return 0;
    atomic_fetch_add(&notes->refused, 1);
    errno = ENOMEM;
    return 1;
}

void *malloc(size_t size) { return is_refused() ? NULL : __libc_malloc(size); }

void *calloc(size_t count, size_t size) { return is_refused() ? NULL : __libc_calloc(count, size); }

void *realloc(void *block, size_t size) { return is_refused() ? NULL : __libc_realloc(block, size); }

void *memalign(size_t alignment, size_t size) { return is_refused() ? NULL : __libc_memalign(alignment, size); }

void *aligned_alloc(size_t alignment, size_t size) { return memalign(alignment, size); }

int posix_memalign(void **block, size_t alignment, size_t size) {
    int before = errno;
    void *made = memalign(alignment, size);
    errno = before;
    if (!made) return ENOMEM;
    *block = made;
    return 0;
}
