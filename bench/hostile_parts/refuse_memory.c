/* Refuses requests for memory of the program that it is loaded into: the request of number REFUSE, and with REFUSE_LATER all
   later ones. Each refusal writes a byte to the file 9. */
#include <errno.h>
#include <stdatomic.h>
#include <stdlib.h>
#include <unistd.h>

extern void *__libc_malloc(size_t size);
extern void *__libc_realloc(void *old, size_t size);
extern void *__libc_calloc(size_t count, size_t size);

static atomic_long requests;
static long refuse = -1;
static int later;

__attribute__((constructor)) static void begin(void) {
    const char *number = getenv("REFUSE");
    later = getenv("REFUSE_LATER") != NULL;
    requests = 0;
    refuse = number ? atol(number) : 0;
}

static int refused(void) {
    if (refuse <= 0) return 0;
    long number = ++requests;
    if (number != refuse && !(later && number > refuse)) return 0;
    ssize_t written = write(9, "x", 1);
    (void)written;
    errno = ENOMEM;
    return 1;
}

void *malloc(size_t size) { return refused() ? NULL : __libc_malloc(size); }
void *realloc(void *old, size_t size) { return refused() ? NULL : __libc_realloc(old, size); }
void *calloc(size_t count, size_t size) { return refused() ? NULL : __libc_calloc(count, size); }
