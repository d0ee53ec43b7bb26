#define _GNU_SOURCE /* memfd_create */
#include "guard.h"

#include <stdio.h>
#include <stdlib.h>
#include <sys/mman.h>
#include <unistd.h>

static uint8_t *writable[BUFFERS], *read_only[BUFFERS];

static void check(int good, const char *what)
{
    if (!good) {
        perror(what);
        exit(2);
    }
}

/* The page of a file in memory, with nothing accessible around it. */
static uint8_t *between(int file, int protection)
{
    uint8_t *pages = mmap(NULL, 3 * CAPACITY, PROT_NONE, MAP_PRIVATE | MAP_ANONYMOUS, -1, 0);

    check(pages != MAP_FAILED, "mmap");
    check(mmap(pages + CAPACITY, CAPACITY, protection, MAP_SHARED | MAP_FIXED, file, 0) != MAP_FAILED, "mmap");
    return pages + CAPACITY;
}

void memory_map(void)
{
    check(CAPACITY % sysconf(_SC_PAGESIZE) == 0, "page size");
    for (int buffer = 0; buffer < BUFFERS; buffer++) {
        int file = memfd_create("guard", 0);

        check(file >= 0 && ftruncate(file, CAPACITY) == 0, "memfd_create");
        writable[buffer] = between(file, PROT_READ | PROT_WRITE);
        read_only[buffer] = between(file, PROT_READ);
        close(file);
    }
}

uint8_t *memory_writable(enum buffer buffer, size_t len, int at_end)
{
    return writable[buffer] + (at_end ? CAPACITY - len : 0);
}

uint8_t *memory_read_only(enum buffer buffer, size_t len, int at_end)
{
    return read_only[buffer] + (at_end ? CAPACITY - len : 0);
}
