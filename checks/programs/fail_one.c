// For LD_PRELOAD: makes one read and one write of a program fail, those of the numbers in READ_FAILS and WRITE_FAILS, counted from 1; none
// if they are 0. With SHORT, reads and writes transfer at most that many bytes. At the end, which is a call of `_exit`, it writes the
// numbers of reads and writes to the file COUNT_TO.
#define _GNU_SOURCE
#include <errno.h>
#include <stdatomic.h>
#include <stdio.h>
#include <stdlib.h>
#include <sys/syscall.h>
#include <unistd.h>

static atomic_long reads, writes;
static long read_fails, write_fails, most;

static long number_in(const char *name) {
    const char *text = getenv(name);
    return text ? atol(text) : 0;
}

__attribute__((constructor)) static void begin(void) {
    read_fails = number_in("READ_FAILS");
    write_fails = number_in("WRITE_FAILS");
    most = number_in("SHORT");
}

static size_t shortened(size_t size) { return most > 0 && size > (size_t)most ? (size_t)most : size; }

ssize_t read(int file, void *to, size_t size) {
    if (atomic_fetch_add(&reads, 1) + 1 == read_fails) { errno = EIO; return -1; }
    return syscall(SYS_read, file, to, shortened(size));
}

ssize_t write(int file, const void *from, size_t size) {
    if (atomic_fetch_add(&writes, 1) + 1 == write_fails) { errno = EIO; return -1; }
    return syscall(SYS_write, file, from, shortened(size));
}

void _exit(int status) {
    const char *name = getenv("COUNT_TO");
    FILE *out = name ? fopen(name, "w") : NULL;
    if (out) {
        char line[64];
        int length = snprintf(line, sizeof line, "%ld %ld\n", (long)reads, (long)writes);
        syscall(SYS_write, fileno(out), line, (size_t)length);
    }
    syscall(SYS_exit_group, status);
    __builtin_unreachable();
}
