/*
 * The two ends of the pipes that bench/sessions.py measures. Each takes the frames that it sends from a file, and does nothing with
 * those that it reads.
 *
 *     asker child SAID [HEARD]       reads a frame and sends the next one of the file SAID, until all are sent, and then reads the
 *                                    rest of its input; writes what it reads to the file HEARD, if there is one
 *     asker echo HEARD PROGRAM..     starts a program, sends it each frame of the file HEARD and reads one for each but the last
 *
 * A child reads each frame whole before it answers. At its end it writes a line to its standard error: how many frames it sent, and
 * the microseconds from the first one to the last one, by the clock, and by the processor in the program and in the system.
 */
#include <fcntl.h>
#include <stdio.h>
#include <stdlib.h>
#include <string.h>
#include <sys/resource.h>
#include <sys/stat.h>
#include <sys/wait.h>
#include <time.h>
#include <unistd.h>

/* As many bytes as a host reads at once. */
enum { ROOM = 65536 };

static unsigned char room[ROOM];

static void fail(const char *what) {
    perror(what);
    exit(1);
}

/* How many bytes a frame has that begins with these four. */
static size_t size_of(const unsigned char *frame) {
    return 4 + ((size_t)frame[0] << 24 | (size_t)frame[1] << 16 | (size_t)frame[2] << 8 | (size_t)frame[3]);
}

static unsigned char *whole(const char *path, size_t *size) {
    struct stat found;
    int file = open(path, O_RDONLY);
    if (file < 0 || fstat(file, &found) < 0)
        fail(path);
    *size = (size_t)found.st_size;
    unsigned char *bytes = malloc(*size + 1);
    for (size_t at = 0; at < *size;) {
        ssize_t count = read(file, bytes + at, *size - at);
        if (count <= 0)
            fail(path);
        at += (size_t)count;
    }
    close(file);
    return bytes;
}

static void send_all(int to, const unsigned char *bytes, size_t size) {
    while (size > 0) {
        ssize_t count = write(to, bytes, size);
        if (count < 0)
            fail("cannot write");
        bytes += count;
        size -= (size_t)count;
    }
}

/* Reads one frame; only its first four bytes are looked at. Gives 0 at the end of the input. The other side sends nothing before it has
   an answer, so that no bytes of a next frame come. */
static int read_frame(int from, int heard) {
    unsigned char head[4];
    size_t known = 0, taken = 0;
    while (known < 4 || taken < size_of(head)) {
        ssize_t count = read(from, room, ROOM);
        if (count < 0)
            fail("cannot read");
        if (count == 0)
            return 0;
        for (ssize_t at = 0; at < count && known < 4; at++)
            head[known++] = room[at];
        taken += (size_t)count;
        if (heard >= 0)
            send_all(heard, room, (size_t)count);
    }
    return 1;
}

static double microseconds(struct timeval time) {
    return 1e6 * (double)time.tv_sec + (double)time.tv_usec;
}

static void child(const char *said, const char *heard_path) {
    size_t size, at = 0;
    unsigned char *frames = whole(said, &size);
    int heard = heard_path ? open(heard_path, O_WRONLY | O_CREAT | O_TRUNC, 0666) : -1;
    unsigned long count = 0;
    struct timespec first, last;
    struct rusage before, after;
    while (at < size && read_frame(0, heard)) {
        if (count++ == 0) {
            clock_gettime(CLOCK_MONOTONIC, &first);
            getrusage(RUSAGE_SELF, &before);
        }
        size_t length = size_of(frames + at);
        send_all(1, frames + at, length);
        at += length;
    }
    clock_gettime(CLOCK_MONOTONIC, &last);
    getrusage(RUSAGE_SELF, &after);
    while (read_frame(0, heard))
        ;
    double taken = 1e6 * (double)(last.tv_sec - first.tv_sec) + 1e-3 * (double)(last.tv_nsec - first.tv_nsec);
    fprintf(stderr, "asker %lu %.0f %.0f %.0f\n", count, taken, microseconds(after.ru_utime) - microseconds(before.ru_utime),
            microseconds(after.ru_stime) - microseconds(before.ru_stime));
}

static void echo(const char *heard, char **program) {
    size_t size, at = 0;
    unsigned char *frames = whole(heard, &size);
    int down[2], up[2];
    if (pipe(down) < 0 || pipe(up) < 0)
        fail("cannot make a pipe");
    pid_t started = fork();
    if (started == 0) {
        dup2(down[0], 0);
        dup2(up[1], 1);
        close(down[0]);
        close(down[1]);
        close(up[0]);
        close(up[1]);
        execv(program[0], program);
        fail(program[0]);
    }
    close(down[0]);
    close(up[1]);
    while (at < size) {
        size_t length = size_of(frames + at);
        send_all(down[1], frames + at, length);
        at += length;
        if (!read_frame(up[0], -1))
            break;
    }
    close(down[1]);
    waitpid(started, NULL, 0);
}

int main(int count, char **words) {
    if (count >= 3 && strcmp(words[1], "child") == 0)
        child(words[2], count > 3 ? words[3] : NULL);
    else if (count >= 4 && strcmp(words[1], "echo") == 0)
        echo(words[2], words + 3);
    else
        return 2;
    return 0;
}
