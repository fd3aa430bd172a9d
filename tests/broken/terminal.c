/* terminal HOW PROGRAM ARGUMENT..: runs a program with a raw pseudo-terminal as standard input, gives it the bytes of its own
   standard input, and then breaks the line (HOW is waiting or stopped: what the program does then) or lets it fall silent (quiet). */
#define _DEFAULT_SOURCE
#define _XOPEN_SOURCE 700
#include <fcntl.h>
#include <signal.h>
#include <stdio.h>
#include <stdlib.h>
#include <string.h>
#include <sys/ioctl.h>
#include <sys/wait.h>
#include <termios.h>
#include <unistd.h>

static void check(int good, const char *what)
{
    if (!good) {
        perror(what);
        exit(99);
    }
}

/* The program's end of the line, raw; a quiet line ends the input after a fifth of a second. */
static int opened(int line, int quiet)
{
    check(grantpt(line) == 0 && unlockpt(line) == 0, "unlockpt");
    int end = open(ptsname(line), O_RDWR | O_NOCTTY | O_CLOEXEC);
    struct termios mode;
    check(end >= 0 && tcgetattr(end, &mode) == 0, "tcgetattr");
    cfmakeraw(&mode);
    mode.c_cc[VMIN] = quiet ? 0 : 1;
    mode.c_cc[VTIME] = quiet ? 2 : 0;
    check(tcsetattr(end, TCSANOW, &mode) == 0, "tcsetattr");
    return end;
}

static void give(int line)
{
    char bytes[512];
    ssize_t n;
    while ((n = read(STDIN_FILENO, bytes, sizeof bytes)) > 0)
        for (ssize_t done = 0, put; done < n; done += put)
            check((put = write(line, bytes + done, (size_t)(n - done))) > 0, "write");
}

/* Until all was read, and the program had time to ask for more. */
static void settle(int end)
{
    int left = 1;
    for (int turn = 0; turn < 1000 && left > 0; turn++) {
        check(ioctl(end, FIONREAD, &left) == 0, "FIONREAD");
        usleep(5000);
    }
    usleep(200000);
}

int main(int count, char **words)
{
    check(count > 2, "terminal HOW PROGRAM ARGUMENT..");
    int quiet = strcmp(words[1], "quiet") == 0, stopped = strcmp(words[1], "stopped") == 0, status;
    int line = posix_openpt(O_RDWR | O_NOCTTY | O_CLOEXEC);
    check(line >= 0, "posix_openpt");
    int end = opened(line, quiet);
    if (quiet)
        give(line);
    pid_t program = fork();
    check(program >= 0, "fork");
    if (program == 0) {
        dup2(end, STDIN_FILENO);
        execv(words[2], words + 2);
        check(0, words[2]);
    }
    if (!quiet) {
        give(line);
        settle(end);
        if (stopped)
            check(kill(program, SIGSTOP) == 0 && waitpid(program, &status, WUNTRACED) == program, "SIGSTOP");
        close(line);
        if (stopped)
            check(kill(program, SIGCONT) == 0, "SIGCONT");
    }
    check(waitpid(program, &status, 0) == program, "waitpid");
    return WIFEXITED(status) ? WEXITSTATUS(status) : 98;
}
