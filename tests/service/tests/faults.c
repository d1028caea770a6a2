/* Preloaded by program.rs, between the program and the system's read and write of streams 0 and 1.
   INTERRUPTS: of three calls two are interrupted, and a write takes 100 bytes at most.
   READ_FAILS, WRITE_FAILS: from this call on, counted from 1, each fails.
   At the end it says on standard error how many calls it interrupted. */
#include <errno.h>
#include <stdio.h>
#include <stdlib.h>
#include <sys/syscall.h>
#include <unistd.h>

enum { MOST = 100 };

struct stream {
    const char *fails;
    unsigned long calls, interrupted;
};

static struct stream input = {"READ_FAILS", 0, 0};
static struct stream output = {"WRITE_FAILS", 0, 0};

/* errno of the call that is due, or 0 where the system has to serve it */
static int fault(struct stream *s) {
    const char *fails = getenv(s->fails);
    s->calls++;
    if (fails && s->calls >= strtoul(fails, NULL, 10))
        return EIO;
    if (!getenv("INTERRUPTS") || s->calls % 3 == 0)
        return 0;
    s->interrupted++;
    return EINTR;
}

ssize_t read(int fd, void *to, size_t n) {
    int error = fd == 0 ? fault(&input) : 0;
    if (error) {
        errno = error;
        return -1;
    }
    return syscall(SYS_read, fd, to, n);
}

ssize_t write(int fd, const void *from, size_t n) {
    int error = fd == 1 ? fault(&output) : 0;
    if (error) {
        errno = error;
        return -1;
    }
    if (fd == 1 && getenv("INTERRUPTS") && n > MOST)
        n = MOST;
    return syscall(SYS_write, fd, from, n);
}

__attribute__((destructor)) static void say(void) {
    char text[80];
    int n = snprintf(text, sizeof text, "interrupted: reads %lu, writes %lu\n", input.interrupted, output.interrupted);
    syscall(SYS_write, 2, text, n);
}
