/* Fails one read of standard input or one write of standard output, or shortens all of them. It is loaded before the
   C library, by LD_PRELOAD.
     FAIL_READ=N, FAIL_WRITE=N    the Nth call fails with EIO, counted from 1
     INTERRUPT_READ=N             the Nth read fails with EINTR
     NO_WRITE=N                   the Nth write takes nothing
     READ_MOST=N, WRITE_MOST=N    each call takes at most N bytes
   At the end it writes to the file that TOLD names how many reads and writes there were, and how many failed. */
#define _GNU_SOURCE
#include <dlfcn.h>
#include <errno.h>
#include <fcntl.h>
#include <stdio.h>
#include <stdlib.h>
#include <sys/syscall.h>
#include <unistd.h>

static ssize_t (*next_read)(int, void *, size_t);
static ssize_t (*next_write)(int, const void *, size_t);
static unsigned long reads, writes, failures;
static unsigned long fail_read, interrupt_read, read_most, fail_write, no_write, write_most;

static unsigned long number(const char *name) {
    const char *text = getenv(name);
    return text == NULL ? 0 : strtoul(text, NULL, 10);
}

__attribute__((constructor)) static void begin(void) {
    next_read = (ssize_t (*)(int, void *, size_t))dlsym(RTLD_NEXT, "read");
    next_write = (ssize_t (*)(int, const void *, size_t))dlsym(RTLD_NEXT, "write");
    fail_read = number("FAIL_READ");
    interrupt_read = number("INTERRUPT_READ");
    read_most = number("READ_MOST");
    fail_write = number("FAIL_WRITE");
    no_write = number("NO_WRITE");
    write_most = number("WRITE_MOST");
}

__attribute__((destructor)) static void tell(void) {
    const char *file = getenv("TOLD");
    char text[96];
    if (file != NULL) {
        int out = open(file, O_WRONLY | O_CREAT | O_TRUNC, 0600);
        int length = snprintf(text, sizeof text, "%lu %lu %lu\n", reads, writes, failures);
        if (out >= 0) {
            if (next_write(out, text, (size_t)length) < 0) {
                syscall(SYS_exit_group, 99);
            }
            close(out);
        }
    }
}

static ssize_t fails(int error) {
    failures++;
    errno = error;
    return -1;
}

ssize_t read(int stream, void *bytes, size_t count) {
    if (stream == 0) {
        reads++;
        if (reads == fail_read) {
            return fails(EIO);
        }
        if (reads == interrupt_read) {
            return fails(EINTR);
        }
        if (read_most != 0 && count > read_most) {
            count = read_most;
        }
    }
    return next_read(stream, bytes, count);
}

ssize_t write(int stream, const void *bytes, size_t count) {
    if (stream == 1) {
        writes++;
        if (writes == fail_write) {
            return fails(EIO);
        }
        if (writes == no_write) {
            failures++;
            return 0;
        }
        if (write_most != 0 && count > write_most) {
            count = write_most;
        }
    }
    return next_write(stream, bytes, count);
}

ssize_t __write(int stream, const void *bytes, size_t count) {
    return write(stream, bytes, count);
}

/* The program ends without the C library's own end, which would run the destructor. */
void _exit(int status) {
    tell();
    syscall(SYS_exit_group, status);
    __builtin_unreachable();
}
