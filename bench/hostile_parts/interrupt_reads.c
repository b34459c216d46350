/* Interrupts each read from the input of the program that it is loaded into. How many there were stands in the file 9, of eight bytes. */
#define _GNU_SOURCE
#include <dlfcn.h>
#include <errno.h>
#include <stdint.h>
#include <sys/mman.h>
#include <unistd.h>

static uint64_t *reads;

__attribute__((constructor)) static void begin(void) {
    void *counted = mmap(NULL, sizeof *reads, PROT_READ | PROT_WRITE, MAP_SHARED, 9, 0);
    reads = counted == MAP_FAILED ? NULL : counted;
}

ssize_t read(int file, void *buffer, size_t size) {
    if (file != 0) return ((ssize_t (*)(int, void *, size_t))dlsym(RTLD_NEXT, "read"))(file, buffer, size);
    if (reads != NULL) *reads += 1;
    errno = EINTR;
    return -1;
}
