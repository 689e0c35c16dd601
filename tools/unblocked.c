/* unblocked PIECE COMMAND..: runs a command whose standard input and output are small pipes that do not block, and passes its own through them, late and a
 * piece at a time: each read of the command fails before there is something, each write before there is room. A piece of the input has PIECE bytes, and
 * where the system has pipes of packets one read gives one piece. Its status is the command's. */
#define _GNU_SOURCE
#include <fcntl.h>
#include <poll.h>
#include <signal.h>
#include <stdio.h>
#include <stdlib.h>
#include <sys/wait.h>
#include <time.h>
#include <unistd.h>

#define LARGEST 1500
#define PIPE_SIZE 4096

static void need(int good, const char *what) {
    if (good)
        return;
    perror(what);
    exit(2);
}

static void linger(void) {
    const struct timespec a_while = {0, 2000000};
    nanosleep(&a_while, NULL);
}

/* The first end is read, the second written; the command's end does not block. What it reads comes in packets, where there are such. */
static void open_pipe(int ends[2], int its_end) {
    need(pipe2(ends, its_end == 0 ? O_DIRECT : 0) == 0 || pipe(ends) == 0, "pipe");
    fcntl(ends[0], F_SETPIPE_SZ, PIPE_SIZE);
    need(fcntl(ends[its_end], F_SETFL, O_NONBLOCK) == 0, "fcntl");
    need(fcntl(ends[1 - its_end], F_SETFD, FD_CLOEXEC) == 0, "fcntl");
}

/* One piece from one descriptor to another: 0 at the end of the first, or where the second is no longer read. */
static int pass(int from, int to, size_t most) {
    char piece[LARGEST];
    const ssize_t got = read(from, piece, most);
    ssize_t done = 0;
    while (done < got) {
        const ssize_t put = write(to, piece + done, (size_t)(got - done));
        if (put <= 0)
            return 0;
        done += put;
    }
    return got > 0;
}

/* Feeds and drains in turn. What cannot be fed waits for the command, so that neither side can hold up the other. */
static void pass_all(int fed, int drained, size_t most) {
    int feeding = 1, draining = 1;
    while (draining) {
        struct pollfd ready[2] = {{.fd = feeding ? fed : -1, .events = POLLOUT}, {.fd = drained, .events = POLLIN}};
        linger();
        need(poll(ready, 2, -1) >= 0, "poll");
        if (feeding && ready[0].revents && !pass(STDIN_FILENO, fed, most)) {
            close(fed);
            feeding = 0;
        }
        if (ready[1].revents)
            draining = pass(drained, STDOUT_FILENO, LARGEST);
    }
}

int main(int argc, char **argv) {
    int in[2], out[2], status = 0;
    const long most = argc > 2 ? strtol(argv[1], NULL, 10) : 0;
    need(0 < most && most <= LARGEST, "unblocked PIECE COMMAND..");
    open_pipe(in, 0);
    open_pipe(out, 1);
    const pid_t child = fork();
    need(child >= 0, "fork");
    if (child == 0) {
        dup2(in[0], STDIN_FILENO);
        dup2(out[1], STDOUT_FILENO);
        execvp(argv[2], argv + 2);
        need(0, argv[2]);
    }
    signal(SIGPIPE, SIG_IGN);
    close(in[0]);
    close(out[1]);
    pass_all(in[1], out[0], (size_t)most);
    waitpid(child, &status, 0);
    return WIFEXITED(status) ? WEXITSTATUS(status) : 128 + WTERMSIG(status);
}
