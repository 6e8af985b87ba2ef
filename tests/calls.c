/* Loaded before a program, this notes each read of standard input and each write to standard output in
   the file that the variable CALLS names, a line for each: `read N` or `write N`, where N is how many
   octets went, or -1 where the call failed. PIECE is the most octets that one read gives, FAILS the
   number of the read that fails, counted from 1, and ROOM how many octets standard output takes in all,
   after which a write fails; each is without bound where its variable is not set. Where DEAF is set, a
   write without room takes nothing in place of failing, and its line is `deaf 0`. */

#define _GNU_SOURCE
#include <errno.h>
#include <fcntl.h>
#include <limits.h>
#include <stdio.h>
#include <stdlib.h>
#include <sys/syscall.h>
#include <sys/types.h>
#include <unistd.h>

static unsigned long piece, fails, room, reads;
static int deaf;
static int log_file = -1;

static unsigned long bound(const char *name) {
    const char *number = getenv(name);
    return number ? strtoul(number, NULL, 10) : ULONG_MAX;
}

__attribute__((constructor)) static void begin(void) {
    const char *name = getenv("CALLS");
    piece = bound("PIECE");
    fails = bound("FAILS");
    room = bound("ROOM");
    deaf = getenv("DEAF") != NULL;
    log_file = name ? open(name, O_WRONLY | O_CREAT | O_TRUNC | O_CLOEXEC, 0600) : -1;
    if (log_file < 0)
        _exit(99);
}

static ssize_t noted(const char *call, ssize_t went) {
    char text[32];
    int length = snprintf(text, sizeof text, "%s %zd\n", call, went);
    int cause = errno;
    if (syscall(SYS_write, log_file, text, length) != length)
        _exit(99);
    errno = cause;
    return went;
}

ssize_t read(int file, void *buffer, size_t count) {
    if (file != STDIN_FILENO)
        return syscall(SYS_read, file, buffer, count);
    if (++reads == fails) {
        errno = EIO;
        return noted("read", -1);
    }
    return noted("read", syscall(SYS_read, file, buffer, count < piece ? count : piece));
}

ssize_t write(int file, const void *buffer, size_t count) {
    if (file != STDOUT_FILENO)
        return syscall(SYS_write, file, buffer, count);
    if (room == 0 && count > 0 && deaf)
        return noted("deaf", 0);
    if (room == 0 && count > 0) {
        errno = ENOSPC;
        return noted("write", -1);
    }
    ssize_t went = syscall(SYS_write, file, buffer, count < room ? count : room);
    if (went > 0 && room != ULONG_MAX)
        room -= (unsigned long)went;
    return noted("write", went);
}
