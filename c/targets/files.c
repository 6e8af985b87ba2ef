/* Standard input and output of a program without an operating system, for picolibc: the files `stdin` and `stdout` in
 * the folder that the emulator runs in, by semihosting. The console of semihosting has no end of file. */
#include <semihost.h>
#include <stdio.h>

static int input, output;
static unsigned char read[256], written[256];
static unsigned next, past, count;

static int get(FILE *file) {
    (void)file;
    if (next == past) {
        next = 0;
        past = sizeof read - (unsigned)sys_semihost_read(input, read, sizeof read);
    }
    return past == 0 ? _FDEV_EOF : read[next++];
}

static int drain(FILE *file) {
    (void)file;
    if (count > 0)
        sys_semihost_write(output, written, count);
    count = 0;
    return 0;
}

static int put(char octet, FILE *file) {
    written[count++] = (unsigned char)octet;
    if (count == sizeof written)
        drain(file);
    return (unsigned char)octet;
}

static FILE both = FDEV_SETUP_STREAM(put, get, drain, _FDEV_SETUP_RW);
FILE *const stdin = &both;
FILE *const stdout = &both;
FILE *const stderr = &both;

__attribute__((constructor)) static void begin(void) {
    input = sys_semihost_open("stdin", SH_OPEN_R_B);
    output = sys_semihost_open("stdout", SH_OPEN_W_B);
}

__attribute__((destructor)) static void end(void) { drain(NULL); }
