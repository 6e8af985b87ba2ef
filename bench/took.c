/* Runs a command, drops what it writes to standard output, and writes what it took: microseconds of user
 * and system time together, and kilobytes of memory at most.
 *
 *     took COMMAND [WORD...] < INPUT
 *
 * The status is that of the command; 126 where it did not run or did not exit. */
#define _DEFAULT_SOURCE
#include <fcntl.h>
#include <stdio.h>
#include <sys/resource.h>
#include <sys/wait.h>
#include <unistd.h>

static void become(char **words) {
    int nowhere = open("/dev/null", O_WRONLY);
    if (nowhere >= 0 && dup2(nowhere, 1) == 1)
        execvp(words[0], words);
    perror(words[0]);
    _exit(126);
}

static long long microseconds(struct timeval time) { return time.tv_sec * 1000000LL + time.tv_usec; }

int main(int argc, char **argv) {
    if (argc < 2) {
        fputs("took COMMAND [WORD...]\n", stderr);
        return 126;
    }
    struct rusage used;
    int status;
    pid_t child = fork();
    if (child == 0)
        become(argv + 1);
    if (child < 0 || wait4(child, &status, 0, &used) != child)
        return 126;
    printf("%lld %ld\n", microseconds(used.ru_utime) + microseconds(used.ru_stime), used.ru_maxrss);
    return WIFEXITED(status) ? WEXITSTATUS(status) : 126;
}
