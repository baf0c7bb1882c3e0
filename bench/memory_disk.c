/* A disk in memory, to measure a run without the system's calls: what a program writes at a place of a file is copied to
   memory and stays there, and a sync does nothing. Nothing else is changed; the program reads its files as they are.
   bench/limit builds it and has it loaded before the program. */
#define _GNU_SOURCE
#include <string.h>
#include <sys/mman.h>
#include <sys/types.h>

static const size_t room = (size_t)1 << 36;
static char *memory;

ssize_t pwrite64(int file, const void *bytes, size_t count, off_t place) {
    (void)file;
    if (!memory) {
        memory = mmap(NULL, room, PROT_READ | PROT_WRITE, MAP_PRIVATE | MAP_ANONYMOUS | MAP_NORESERVE, -1, 0);
        if (memory == MAP_FAILED) return -1;
    }
    if (place < 0 || (size_t)place > room || count > room - (size_t)place) return -1;
    memcpy(memory + place, bytes, count);
    return (ssize_t)count;
}

ssize_t pwrite(int file, const void *bytes, size_t count, off_t place) { return pwrite64(file, bytes, count, place); }

int fdatasync(int file) {
    (void)file;
    return 0;
}
