/* What a plain file costs, for beside.py: plain write|each|load|cat FILE
 *
 * write   copies standard input to a new file by pieces of 64 KiB, and ends with one fdatasync
 * each    makes a new file, appends each 100 bytes of standard input with an fdatasync, and answers by a byte
 * load    reads a file into memory
 * cat     copies a file to standard output by pieces of 64 KiB
 *
 * plain run REPORT PROGRAM [WORD ..] runs a program and ends with its status. Into the file REPORT go the seconds that
 * it took, the most memory that it had, in KiB, and its page faults. */
#include <errno.h>
#include <fcntl.h>
#include <stdio.h>
#include <stdlib.h>
#include <string.h>
#include <sys/resource.h>
#include <sys/stat.h>
#include <sys/wait.h>
#include <time.h>
#include <unistd.h>

enum { PIECE = 1 << 16, RECORD = 100 };

static void fail(const char *what) {
    fprintf(stderr, "plain: %s: %s\n", what, strerror(errno));
    exit(1);
}

/* Reads so many bytes, or fewer at the end. */
static size_t get(int from, char *bytes, size_t len) {
    size_t done = 0;
    while (done < len) {
        ssize_t count = read(from, bytes + done, len - done);
        if (count == 0)
            break;
        if (count < 0 && errno != EINTR)
            fail("read");
        done += count > 0 ? (size_t)count : 0;
    }
    return done;
}

static void put(int to, const char *bytes, size_t len) {
    while (len > 0) {
        ssize_t count = write(to, bytes, len);
        if (count < 0 && errno != EINTR)
            fail("write");
        bytes += count > 0 ? count : 0;
        len -= count > 0 ? (size_t)count : 0;
    }
}

static int opened(const char *path, int flags) {
    int file = open(path, flags | O_CLOEXEC, 0666);
    if (file < 0)
        fail(path);
    return file;
}

static void sync_file(int file) {
    if (fdatasync(file) != 0)
        fail("fdatasync");
}

static void copy(int from, int to) {
    static char bytes[PIECE];
    size_t len;
    while ((len = get(from, bytes, PIECE)) > 0)
        put(to, bytes, len);
}

static void write_all(const char *path) {
    int file = opened(path, O_WRONLY | O_CREAT | O_TRUNC);
    copy(STDIN_FILENO, file);
    sync_file(file);
    close(file);
}

static void write_each(const char *path) {
    int file = opened(path, O_WRONLY | O_CREAT | O_TRUNC);
    char record[RECORD];
    while (get(STDIN_FILENO, record, RECORD) == RECORD) {
        put(file, record, RECORD);
        sync_file(file);
        put(STDOUT_FILENO, "+", 1);
    }
    close(file);
}

static void load(const char *path) {
    int file = opened(path, O_RDONLY);
    struct stat about;
    if (fstat(file, &about) != 0)
        fail(path);
    size_t len = (size_t)about.st_size;
    char *bytes = malloc(len > 0 ? len : 1);
    if (bytes == NULL)
        fail("malloc");
    printf("%zu\n", get(file, bytes, len));
    free(bytes);
    close(file);
}

static double now(void) {
    struct timespec time;
    clock_gettime(CLOCK_MONOTONIC, &time);
    return (double)time.tv_sec + (double)time.tv_nsec / 1e9;
}

static int run(const char *report, char **command) {
    double begun = now();
    pid_t child = fork();
    if (child < 0)
        fail("fork");
    if (child == 0) {
        execv(command[0], command);
        fail(command[0]);
    }
    int status;
    struct rusage usage;
    while (wait4(child, &status, 0, &usage) < 0)
        if (errno != EINTR)
            fail("wait4");
    double seconds = now() - begun;
    FILE *out = fopen(report, "w");
    if (out == NULL)
        fail(report);
    fprintf(out, "%.9f %ld %ld\n", seconds, usage.ru_maxrss, usage.ru_minflt);
    if (fclose(out) != 0)
        fail(report);
    return WIFEXITED(status) ? WEXITSTATUS(status) : 128 + WTERMSIG(status);
}

int main(int count, char **words) {
    const char *what = count >= 3 ? words[1] : "";
    if (strcmp(what, "run") == 0 && count >= 4)
        return run(words[2], words + 3);
    if (strcmp(what, "write") == 0)
        write_all(words[2]);
    else if (strcmp(what, "each") == 0)
        write_each(words[2]);
    else if (strcmp(what, "load") == 0)
        load(words[2]);
    else if (strcmp(what, "cat") == 0)
        copy(opened(words[2], O_RDONLY), STDOUT_FILENO);
    else {
        fputs("usage: plain write|each|load|cat FILE, or plain run REPORT PROGRAM [WORD ..]\n", stderr);
        return 2;
    }
    return 0;
}
